ScriptName Doorman extends ObjectReference
{Counts at the board who comes through his door. He loses count where another does so at once.}

Board Property Shared Auto

Event OnActivate(ObjectReference akActionRef)
    Shared.Count += 1
EndEvent
