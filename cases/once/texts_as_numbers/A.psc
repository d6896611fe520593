ScriptName A
Event OnInit()
Debug.Trace("-0" as Int)
Debug.Trace("2147483648" as Int)
Debug.Trace("-2147483648" as Int)
Debug.Trace("2147483647" as Int)
Debug.Trace("+1" as Int)
Debug.Trace("-" as Int)
Debug.Trace("007" as Int)
EndEvent
