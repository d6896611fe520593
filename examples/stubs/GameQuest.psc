ScriptName GameQuest extends Quest
{Stands for Quest with its functions and events, since the Quest of this program has none but OnInit.}

Int Property Stage Auto
{What GetStage gives.}

Bool running = True
Bool registered
Bool registeredOnce

Event OnUpdate()
EndEvent

Int Function GetStage()
    Scene.Sleep(0)
    Return Stage
EndFunction

Bool Function SetStage(Int aiStage)
    Scene.Sleep(0)
    Stage = aiStage
    Return True
EndFunction

Bool Function IsRunning()
    Return running
EndFunction

Function Start()
    Scene.Sleep(0)
    running = True
EndFunction

Function Stop()
    Scene.Sleep(0)
    running = False
EndFunction

Function CompleteQuest()
    Debug.Trace(Self + " is complete")
EndFunction

Function SetObjectiveDisplayed(Int aiObjective, Bool abDisplayed = True, Bool abForce = False)
    Debug.Trace(Self + " shows objective " + aiObjective)
EndFunction

Function SetObjectiveCompleted(Int aiObjective, Bool abCompleted = True)
    Debug.Trace(Self + " completes objective " + aiObjective)
EndFunction

; Updates. The scene calls Tick in place of the game's timer.
Function RegisterForUpdate(Int aiTurns)
    Scene.Sleep(0)
    registered = True
EndFunction

Function RegisterForSingleUpdate(Int aiTurns)
    Scene.Sleep(0)
    registeredOnce = True
EndFunction

Function UnregisterForUpdate()
    Scene.Sleep(0)
    registered = False
    registeredOnce = False
EndFunction

Function Tick()
    If registered || registeredOnce
        registeredOnce = False
        OnUpdate()
    EndIf
EndFunction
