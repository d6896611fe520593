ScriptName M
Event OnInit()
Debug.Trace(-7 / 2)
Debug.Trace(-7 % 2)
Debug.Trace(7 / -2)
Debug.Trace(7 % -2)
Debug.Trace(0x80000000 / -1)
Debug.Trace(0x80000000 % -1)
Debug.Trace(1 / 0)
Debug.Trace(1 % 0)
EndEvent
