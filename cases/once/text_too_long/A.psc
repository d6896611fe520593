ScriptName A
Event OnInit()
String s = "0123456789abcdef"
Int i = 0
While i < 6
  s = s + s
  i += 1
EndWhile
Debug.Trace(s == s + "")
Debug.Trace(s + "y")
EndEvent
