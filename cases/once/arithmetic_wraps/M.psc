ScriptName M
Event OnInit()
Debug.Trace(2147483647 + 1)
Debug.Trace(0x80000000 - 1)
Debug.Trace(65536 * 65536)
Debug.Trace(65537 * 65537)
Debug.Trace(-0x80000000)
Debug.Trace(1 + 2 * 3)
Debug.Trace((1 + 2) * 3)
Debug.Trace(10 - 3 - 2)
EndEvent
