ScriptName Kid extends Base
Int Property Own = 1 Auto
