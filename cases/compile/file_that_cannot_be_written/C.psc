ScriptName C
