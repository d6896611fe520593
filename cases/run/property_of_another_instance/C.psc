ScriptName C
C Property Other Auto
Int Property N = 5 Auto
Function Take()
  N = Other.N + 1
  Other.N += 10
EndFunction
