ScriptName Deep
Function F()
F()
EndFunction
Event OnInit()
F()
EndEvent
