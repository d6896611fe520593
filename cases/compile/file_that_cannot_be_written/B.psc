ScriptName B
