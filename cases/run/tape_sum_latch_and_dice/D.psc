ScriptName D
Int Function Read() Global Native
Int Function Add(Int n) Global Native
Int Function Swap(Int n) Global Native
Int Function Roll(Int low, Int high) Global Native
Event OnInit()
  Debug.Trace(Read() + " " + Read() + " " + Read())
  Debug.Trace(Add(3) + " " + Add(-10))
  Debug.Trace(Swap(9) + " " + Swap(8))
  Debug.Trace(Roll(1, 6) + " " + Roll(6, 1) + " " + Roll(1, 6) + " " + Roll(2, 6))
EndEvent
