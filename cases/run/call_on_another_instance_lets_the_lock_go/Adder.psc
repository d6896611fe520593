ScriptName Adder
Int Function Next(Int n)
  Return n + 1
EndFunction
