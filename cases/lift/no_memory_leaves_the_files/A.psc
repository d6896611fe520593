ScriptName A
