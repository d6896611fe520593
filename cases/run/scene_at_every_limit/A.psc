ScriptName A
String Property T Auto
Event OnInit()
EndEvent
