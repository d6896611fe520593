ScriptName Base extends Quest
Int Property First = 2 Auto
Int Property Second = 3 Auto Hidden
Int Property Most = 4 AutoReadOnly
Int kept = 5
