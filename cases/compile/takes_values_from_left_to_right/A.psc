ScriptName A
Int N
Int Function F()
N = 5
Return 1
EndFunction
Event OnInit()
Debug.Trace(N + F())
EndEvent
