ScriptName A
Event OnInit()
Int i = 0
While i < 4096
  Int[] a = new Int[1]
  i += 1
EndWhile
Int[] b = new Int[1]
Debug.Trace(b.Length)
EndEvent
