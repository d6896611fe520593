ScriptName Board extends ObjectReference
{A board that shows how many have come.}

Int Property Count Auto

Function Add(Int aiNumber)
    Count += aiNumber
EndFunction
