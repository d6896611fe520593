ScriptName A
B Property Other Auto
Event OnInit()
Other.Ping(Self)
EndEvent
Function Pong()
Debug.Trace("pong")
EndFunction
