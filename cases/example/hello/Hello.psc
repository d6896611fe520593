ScriptName Hello
Event OnInit()
Debug.Trace("hello")
Debug.Trace("from a script")
EndEvent
