ScriptName Math Hidden
{Stands for Math, with whole numbers. A call of these lets go of the caller's instance, as every Global function with a body does.}

Int Function abs(Int aiValue) Global
    If aiValue < 0
        Return -aiValue
    EndIf
    Return aiValue
EndFunction

Int Function pow(Int aiBase, Int aiExponent) Global
    Int result = 1
    While aiExponent > 0
        result *= aiBase
        aiExponent -= 1
    EndWhile
    Return result
EndFunction

Int Function sqrt(Int aiValue) Global
{The largest whole number whose square isn't above the value.}
    Int root = 0
    While (root + 1) * (root + 1) <= aiValue
        root += 1
    EndWhile
    Return root
EndFunction
