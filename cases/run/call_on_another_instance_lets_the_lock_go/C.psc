ScriptName C
Adder Property Helper Auto
Int Property N Auto
Function Bump()
  Int old = N
  N = Helper.Next(old)
EndFunction
