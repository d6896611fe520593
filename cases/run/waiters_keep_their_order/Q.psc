ScriptName Q
Function Twice(String text)
  Debug.Trace(text + " 1")
  Debug.Trace(text + " 2")
EndFunction
