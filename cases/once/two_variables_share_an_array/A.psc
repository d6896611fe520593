ScriptName A
Event OnInit()
Int[] a = new Int[2]
Int[] b = a
b[0] = 8
Debug.Trace(a[0])
Debug.Trace(a == b)
Debug.Trace(a == new Int[2])
EndEvent
