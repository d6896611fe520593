ScriptName Controller extends Quest
Int[] Property Slots Auto
Int Property Seen Auto Hidden
Event OnInit()
  Slots = new Int[8]
  Int i = 0
  While i < Slots.Length
    Slots[i] = i * i
    i += 1
  EndWhile
EndEvent
Function Report(Gate akGate, Int aiUses)
  Seen += 1
  Debug.Trace("gate " + akGate + " used " + aiUses)
EndFunction
