ScriptName R
Event OnInit()
Int[] a = new Int[128]
a[127] = 7
Debug.Trace(a[127])
Debug.Trace(a[128])
a[-1] = 2
EndEvent
