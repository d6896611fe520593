ScriptName A
Event OnInit()
Debug.Trace(True as Int)
Debug.Trace("-12" as Int)
Debug.Trace("12 " as Int)
Debug.Trace("2147483648" as Int)
Debug.Trace(5 as Bool)
Debug.Trace("" as Bool)
Debug.Trace(Self as Bool)
Debug.Trace(Self)
Debug.Trace(None)
Debug.Trace(1 + "2" + True)
EndEvent
