ScriptName Gate extends ObjectReference
{A gate.}
Controller Property Owner Auto
Int Property Uses = 0 Auto
Event OnActivate(Gate akBy)
EndEvent
Auto State Closed
  Event OnActivate(Gate akBy)
    GotoState("Open")
    Owner.Report(Self, Uses)
  EndEvent
EndState
State Open
  Event OnActivate(Gate akBy)
    Uses += 1
  EndEvent
EndState
