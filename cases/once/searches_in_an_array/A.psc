ScriptName A
Event OnInit()
Int[] a = new Int[3]
a[0] = 3
a[1] = 1
a[2] = 3
Debug.Trace(a.Find(3) + " " + a.Find(3, 1) + " " + a.Find(3, 3) + " " + a.Find(3, -5))
Debug.Trace(a.RFind(3) + " " + a.RFind(3, 1) + " " + a.RFind(3, 5) + " " + a.RFind(2))
String[] t = new String[2]
t[1] = "Key"
Debug.Trace(t.Find("KEY"))
EndEvent
