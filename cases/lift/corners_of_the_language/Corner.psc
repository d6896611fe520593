ScriptName Corner extends Base
{Names of scripts as names of variables, and None where it fits.}
Base friend
Base[] friends
Int Base = 3
Base Property Kept = None Auto
String Property Named = "a" AutoReadOnly
Event OnInit()
  friends = new Base[2]
  friends[0] = None
  friends[1] = Self
  friend = friends[0]
  Kept = None
  Debug.Trace("none " + (friend == None) + " " + (None == friends[1]) + " " + (friend as Bool) + " " + friend)
  Debug.Trace("same " + Pick(None, friends[1], True) + " " + Pick(None, friends[1]))
  Debug.Trace("own " + Base + " " + Named + " " + Other())
  OnlyWritten = Twice(Base) - 0x80000001
  Debug.Trace("read " + OnlyRead)
  Step("first")
  GotoState("Busy")
  Step("second")
  GotoState("Idle")
  Step("third")
EndEvent
Base Function Pick(Base left, Base right = None, Bool first = False)
  If first && left == None || left
    Return right
  ElseIf right as Corner && !first
    Return Self
  Else
    Return None
  EndIf
EndFunction
Int Function Twice(Int n) Global
  Return n * 2
EndFunction
State Busy
  Function Step(String by)
    Parent.Step(by + " from below")
  EndFunction
EndState
State Idle
EndState
