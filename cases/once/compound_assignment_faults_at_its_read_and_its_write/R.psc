ScriptName R
Event OnInit()
Int[] a = new Int[2]
Int[] b
a[2] += 1
b[0] += 1
Debug.Trace(b.Length)
EndEvent
