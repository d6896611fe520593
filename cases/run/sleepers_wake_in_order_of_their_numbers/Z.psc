ScriptName Z
Function Nap(Int turns)
  Scene.Sleep(turns)
  Debug.Trace("up after " + turns)
EndFunction
