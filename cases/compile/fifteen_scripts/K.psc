ScriptName K
Event OnInit()
Debug.Trace(Utility.RandomInt(1, 6))
Debug.Trace(Utility.RandomInt(aiMax = 9))
EndEvent
