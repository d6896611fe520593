ScriptName Base extends Quest
Int count
Int Property OnlyRead
  Int Function Get()
    Return count
  EndFunction
EndProperty
Int Property OnlyWritten
  Function Set(Int value)
    count = value
  EndFunction
EndProperty
Function Step(String by)
  count += 1
  Debug.Trace("base " + by + " " + count)
EndFunction
Base Function Other() Global
  Return None
EndFunction
State Busy
  Function Step(String by)
    count += 10
    Debug.Trace("busy " + by + " " + count)
  EndFunction
EndState
