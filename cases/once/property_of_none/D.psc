ScriptName D
D Property Other Auto
Int Property N = 4 Auto
Event OnInit()
Debug.Trace(Other.N)
Other.N = 1
Other.N += 1
EndEvent
