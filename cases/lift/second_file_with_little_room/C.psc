ScriptName C
Int n
