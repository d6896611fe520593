ScriptName A
Int Property N Auto
Event OnInit()
EndEvent
