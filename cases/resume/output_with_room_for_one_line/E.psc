ScriptName E
Event OnInit()
Scene.Sleep(2)
Debug.Trace("up")
EndEvent
