ScriptName Empty extends Quest
