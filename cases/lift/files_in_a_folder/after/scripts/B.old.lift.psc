ScriptName B Extends A

Int n
