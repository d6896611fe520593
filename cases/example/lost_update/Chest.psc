ScriptName Chest extends ObjectReference
{A chest of gold. It loses count where two people take from it at once.}

Int Property Gold = 10 Auto

Function Take(Int aiCoins)
    Int left = Gold - aiCoins
    Scene.Sleep(2)
    Gold = left
    Debug.Trace("took " + aiCoins + ", " + Gold + " left")
EndFunction
