ScriptName A
Function F(Int a, Int b = 2, String c = "c")
Debug.Trace(a + " " + b + " " + c)
EndFunction
Event OnInit()
F(1)
F(1, c = "x")
F(c = "y", a = 7)
EndEvent
