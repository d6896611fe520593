ScriptName Controller extends Quest
{Counts how often its gates were opened.}

Int Property Opened Auto

Function Report(Gate akGate)
    Opened += 1
    Debug.Trace(akGate + " is open, " + Opened + " in all")
EndFunction
