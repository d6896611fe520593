ScriptName Bell extends ObjectReference
{A bell that is rung by hand, and is silent at night.}

Int Property Strokes = 0 Auto
{How often it was struck.}
Int Property Loudness = 3 AutoReadOnly
Bell Property Neighbour Auto Hidden
Int[] rung

Event OnInit()
    rung = new Int[24]
EndEvent

Int Function Ring(Int aiHour, Int aiTimes = 1)
{Strikes so often, and gives how often it was struck in this hour.}
    Int i = 0
    While i < aiTimes && i < 12
        Strokes += 1
        rung[aiHour] = rung[aiHour] + 1
        i += 1
    EndWhile
    If rung[aiHour] > 100
        Debug.Trace("The bell is hoarse")
    ElseIf Neighbour != None
        Neighbour.Strokes += Loudness
    Else
        Debug.Trace("Rung " + Strokes + " times")
    EndIf
    Return rung[aiHour]
EndFunction

Auto State Day
    Event OnEndState()
        Ring(aiTimes = 3, aiHour = 18)
    EndEvent
EndState

State Night
    Int Function Ring(Int aiHour, Int aiTimes = 1)
        Return 0
    EndFunction
EndState
