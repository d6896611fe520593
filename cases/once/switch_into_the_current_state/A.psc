ScriptName A
Auto State Open
Event OnBeginState()
Debug.Trace("begins")
EndEvent
Event OnEndState()
Debug.Trace("ends")
EndEvent
EndState
Event OnInit()
Debug.Trace("first")
GotoState("Open")
EndEvent
