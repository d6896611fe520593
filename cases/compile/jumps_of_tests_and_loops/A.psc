ScriptName A
Bool Function F(Bool p, Bool q, Bool r)
Return p && q || r
EndFunction
Function G(Bool p)
While p
If p
Return
EndIf
EndWhile
EndFunction
