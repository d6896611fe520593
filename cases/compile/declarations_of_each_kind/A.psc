ScriptName A Extends Form Hidden conditional {own}
{dropped}
Import Debug
Int x = -(5) Hidden
A[] xs = None Conditional

Int Property P = - 5 Auto Hidden {first}
Bool Property Q = True AutoReadOnly
String Property R = "A" Auto Conditional
Int Property S Hidden
{full}
Int Function Get()
{getter}
Return x
EndFunction
EndProperty
Int[] Function F(Int a, A b = None) Native Hidden {native}
Function G() Global Native
Event E(Bool b = False)
{event}
If b
x = 1
ElseIf P
Else

P = 2
EndIf
EndEvent
Auto State T
Event E(Bool c)
EndEvent
EndState
State U
EndState
