ScriptName Baker
{Bakes what lies on a shelf, and waits where nothing does.}

Shelf Property Source Auto
Int Property Bread Auto

Event OnInit()
    Int flour = Source.Take()
    While flour >= 0
        If flour > 0
            Bread += flour
            Debug.Trace("baked " + flour)
        EndIf
        Scene.Sleep(3)
        flour = Source.Take()
    EndWhile
EndEvent
