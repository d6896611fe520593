ScriptName A
Event OnInit()
  Debug.Trace("begins")
  String long = "sixty-four letters, and four times as many, and then four again."
  Int doubled = 0
  While doubled < 4
    long += long
    doubled += 1
  EndWhile
  While True
    String[] kept = New String[128]
    Int i = 0
    While i < kept.Length
      kept[i] = long
      i += 1
    EndWhile
  EndWhile
EndEvent
