ScriptName W1
Hub Property Target Auto
Event OnInit()
Int i = 0
While i < 1000
Target.Add(1)
i += 1
EndWhile
EndEvent
