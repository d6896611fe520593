ScriptName Shelf
{A shelf with one place. Put and Take look and change in one go.}

Int Property Flour Auto
Bool Property Closed Auto

Bool Function Put(Int aiFlour)
    If Flour > 0
        Return False
    EndIf
    Flour = aiFlour
    Return True
EndFunction

Int Function Take()
    {The flour, 0 where the shelf is empty, -1 where nothing will come any more.}
    Int taken = Flour
    Flour = 0
    If taken == 0 && Closed
        Return -1
    EndIf
    Return taken
EndFunction

Function Close()
    Closed = True
EndFunction
