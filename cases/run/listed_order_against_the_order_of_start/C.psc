ScriptName C
Function Say(String text)
  Debug.Trace(text)
EndFunction
