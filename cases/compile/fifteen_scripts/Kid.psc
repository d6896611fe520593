ScriptName Kid extends Base
Function F()
Debug.Trace("kid")
EndFunction
Event OnInit()
F()
GotoState("")
F()
EndEvent
