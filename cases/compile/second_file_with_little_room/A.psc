ScriptName A extends Quest
