ScriptName A
Event OnInit()
If True
If True
If True
If True
If True
If True
If True
If True
If True
If True
If True
If True
If True
If True
If True
If True
If True
If True
If True
If True
If True
If True
If True
If True
If True
If True
If True
If True
If True
If True
If True
If True
If True
If True
If True
If True
If True
If True
If True
If True
If True
If True
If True
If True
If True
If True
If True
If True
If True
If True
If True
If True
If True
If True
If True
If True
If True
If True
If True
If True
If True
If True
If True
If True
If True
EndIf
EndIf
EndIf
EndIf
EndIf
EndIf
EndIf
EndIf
EndIf
EndIf
EndIf
EndIf
EndIf
EndIf
EndIf
EndIf
EndIf
EndIf
EndIf
EndIf
EndIf
EndIf
EndIf
EndIf
EndIf
EndIf
EndIf
EndIf
EndIf
EndIf
EndIf
EndIf
EndIf
EndIf
EndIf
EndIf
EndIf
EndIf
EndIf
EndIf
EndIf
EndIf
EndIf
EndIf
EndIf
EndIf
EndIf
EndIf
EndIf
EndIf
EndIf
EndIf
EndIf
EndIf
EndIf
EndIf
EndIf
EndIf
EndIf
EndIf
EndIf
EndIf
EndIf
EndIf
EndIf
EndEvent
