ScriptName D
D Property Other Auto
Int Function One()
Return 1
EndFunction
Event OnInit()
Debug.Trace(2 + Other.One())
EndEvent
