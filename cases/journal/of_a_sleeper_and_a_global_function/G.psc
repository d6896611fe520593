ScriptName G
Function Wait() Global
Scene.Sleep(1)
Debug.Trace("slept")
EndFunction
Event OnInit()
G.Wait()
EndEvent
