ScriptName G
Bool Function F()
Debug.Trace("no")
Return True
EndFunction
Event OnInit()
Debug.Trace(False && F())
EndEvent
