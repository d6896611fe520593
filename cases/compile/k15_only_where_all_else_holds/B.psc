ScriptName B
Gate Door
