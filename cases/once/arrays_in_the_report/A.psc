ScriptName A
Int[] Property Numbers Auto
Bool[] Property Flags Auto
String[] Property Texts Auto
A[] Property Links Auto
Int[] Property Nothing Auto
Event OnInit()
Numbers = new Int[3]
Numbers[1] = -5
Flags = new Bool[1]
Texts = new String[2]
Texts[0] = "a\\b"
Links = new A[2]
Links[0] = Self
EndEvent
