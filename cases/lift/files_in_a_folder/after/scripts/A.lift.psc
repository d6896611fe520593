ScriptName A

Int n
