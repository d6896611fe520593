ScriptName V
Int Property N Auto
Bool Property B Auto
String Property T Auto
V Property Link Auto
Int[] Property Numbers Auto
Function F(Int aiN, Bool abB, String asT, V akLink, Int[] aiNumbers)
  N = aiN
  B = abB
  T = asT
  Link = akLink
  Numbers = aiNumbers
EndFunction
