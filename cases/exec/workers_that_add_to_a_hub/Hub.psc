ScriptName Hub
Int Property Total Auto
Function Add(Int n)
Total += n
EndFunction
