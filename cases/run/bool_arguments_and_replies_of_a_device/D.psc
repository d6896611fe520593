ScriptName D
Bool Function Flip(Bool on) Global Native
Function Clear(Int n) Global Native
Event OnInit()
  Debug.Trace(Flip(True))
  Debug.Trace(Flip(False))
  Clear(5)
  Debug.Trace(Flip(False))
EndEvent
