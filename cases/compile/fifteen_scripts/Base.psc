ScriptName Base
Auto State S
Function F()
Debug.Trace("base S")
EndFunction
EndState
Function F()
EndFunction
