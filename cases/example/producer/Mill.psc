ScriptName Mill
{Grinds one sack after the other, and lays the flour on a shelf.}

Shelf Property Target Auto

Int Function NextSack() Global Native

Event OnInit()
    Int flour = NextSack()
    While flour > 0
        While !Target.Put(flour)
            Scene.Sleep(2)
        EndWhile
        flour = NextSack()
    EndWhile
    Target.Close()
EndEvent
