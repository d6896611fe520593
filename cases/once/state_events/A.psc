ScriptName A
Event OnInit()
GotoState("Open")
Debug.Trace(GetState())
EndEvent
Event OnEndState()
Debug.Trace("end of '" + GetState() + "'")
EndEvent
State Open
Event OnBeginState()
Debug.Trace("begin " + GetState())
EndEvent
EndState
