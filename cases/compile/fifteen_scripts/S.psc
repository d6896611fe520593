ScriptName S
Function Work()
EndFunction
Function Switch()
GotoState("Second")
EndFunction
Auto State First
Function Work()
Scene.Sleep(3)
Debug.Trace("first")
EndFunction
EndState
State Second
Function Work()
Debug.Trace("second")
EndFunction
EndState
