ScriptName Ledger extends ObjectReference
{Counts the people who came over the river.}

Int Property People Auto

Function Enter(Int aiPeople)
    People += aiPeople
    Announce(People)
EndFunction

Function Announce(Int aiPeople) Global
    Debug.Trace(aiPeople + " have crossed")
EndFunction
