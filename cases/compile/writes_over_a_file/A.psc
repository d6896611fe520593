ScriptName A
Event OnInit()
Debug.Trace("a")
EndEvent
