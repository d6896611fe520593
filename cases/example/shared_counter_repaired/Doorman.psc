ScriptName Doorman extends ObjectReference
{Tells the board who comes through his door, and the board counts.}

Board Property Shared Auto

Event OnActivate(ObjectReference akActionRef)
    Shared.Add(1)
EndEvent
