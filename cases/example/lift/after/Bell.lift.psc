ScriptName Bell Extends ObjectReference
{A bell that is rung by hand, and is silent at night.}

Int Property Strokes Auto
{How often it was struck.}
Int Property Loudness = 3 AutoReadOnly
Bell Property Neighbour Auto Hidden
Int[] rung

Event OnInit()
    rung = new Int[24]
EndEvent

Int Function Ring(Int number0, Int number1)
{Strikes so often, and gives how often it was struck in this hour.}
    Int number2 = 0
    While number2 < number1 && number2 < 12
        Strokes += 1
        rung[number0] += 1
        number2 += 1
    EndWhile
    If rung[number0] > 100
        Debug.Trace("The bell is hoarse")
    ElseIf Neighbour != None
        Neighbour.Strokes += Self.Loudness
    Else
        Debug.Trace("Rung " + Strokes + " times")
    EndIf
    Return rung[number0]
EndFunction

Auto State Day
    Event OnEndState()
        Ring(18, 3)
    EndEvent
EndState

State Night
    Int Function Ring(Int number0, Int number1)
        Return 0
    EndFunction
EndState
