ScriptName A
Int n
