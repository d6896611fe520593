ScriptName B extends A
