ScriptName A
Int Function Say(String text, Int n)
Debug.Trace(text)
Return n
EndFunction
Function F(Int a, Int b)
Debug.Trace(a + " " + b)
EndFunction
Event OnInit()
F(b = Say("first", 2), a = Say("second", 1))
EndEvent
