ScriptName GlobalVariable extends Form
{Stands for GlobalVariable, with a whole number.}

Int Property Value Auto

Int Function GetValueInt()
    Return Value
EndFunction

Function SetValueInt(Int aiNewValue)
    Value = aiNewValue
EndFunction

Int Function Mod(Int aiHowMuch)
{Reads and writes in one turn.}
    Value += aiHowMuch
    Return Value
EndFunction
