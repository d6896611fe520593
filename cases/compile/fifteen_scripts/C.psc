ScriptName C
Int Property N Auto
Function Bump()
Int old = N
Debug.Trace("x")
N = old + 1
EndFunction
