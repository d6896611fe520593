ScriptName A
Event OnInit()
Debug.Trace("Gate" == "gATE")
Debug.Trace("Gate" != "Gates")
Debug.Trace(1 == "1")
EndEvent
