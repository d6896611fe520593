ScriptName Chest extends ObjectReference
{A chest of gold. It counts before it lets others at it.}

Int Property Gold = 10 Auto

Function Take(Int aiCoins)
    Gold -= aiCoins
    Int left = Gold
    Scene.Sleep(2)
    Debug.Trace("took " + aiCoins + ", " + left + " left")
EndFunction
