ScriptName A
Int n
Function F()
n += 1
EndFunction
