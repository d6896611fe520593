ScriptName A
A Property Other Auto
Function Ping(Int n)
EndFunction
Event OnInit()
Other.Ping(1 / 0)
EndEvent
