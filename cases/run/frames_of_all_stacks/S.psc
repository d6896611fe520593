ScriptName S
Function Down(Int n)
  If n > 0
    Down(n - 1)
  Else
    Scene.Sleep(1000)
  EndIf
EndFunction
