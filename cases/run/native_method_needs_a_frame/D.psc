ScriptName D
Int Function Read() Native
Function Down(Int n)
  If n > 0
    Down(n - 1)
  Else
    Debug.Trace("deepest")
    Debug.Trace(Read())
  EndIf
EndFunction
