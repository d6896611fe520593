ScriptName Door
Door Property Next Auto
Int Function ReadKey() Global Native
Function Open(Door akOther)
  Debug.Trace(akOther + " " + ReadKey())
EndFunction
