ScriptName B
Function Ping(A who)
  who.Pong()
EndFunction
