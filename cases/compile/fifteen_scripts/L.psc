ScriptName L
Event OnInit()
Int i = 0
While i < 10
i += 1
EndWhile
EndEvent
