ScriptName Gate extends ObjectReference
{A gate that opens once, however many people push it.}

Controller Property Owner Auto
Int Property Late Auto
{How many people pushed when it was open already.}

Event OnActivate(ObjectReference akBy)
EndEvent

Auto State Closed
    Event OnActivate(ObjectReference akBy)
        GotoState("Open")
        Owner.Report(Self)
    EndEvent
EndState

State Open
    Event OnActivate(ObjectReference akBy)
        Late += 1
    EndEvent
EndState
