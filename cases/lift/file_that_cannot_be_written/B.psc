ScriptName B
Int n
