ScriptName Ferry extends ObjectReference
{A ferry over a river. Who has crossed stands in a ledger.}

Ledger Property Book Auto

Function Cross(Int aiPeople)
    Scene.Sleep(3)
    Book.Enter(aiPeople)
EndFunction
