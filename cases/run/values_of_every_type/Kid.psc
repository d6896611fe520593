ScriptName Kid extends V
