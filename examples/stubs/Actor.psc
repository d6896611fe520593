ScriptName Actor extends Reference
{Stands for Actor. Values are whole numbers.}

Int Property Health = 100 Auto
Int Property Magicka = 100 Auto
Int Property Stamina = 100 Auto
Bool Property Fighting Auto
{What IsInCombat gives.}

Event OnDeath(Actor akKiller)
EndEvent

Int Function GetActorValue(String asValueName)
    Scene.Sleep(0)
    If asValueName == "Health"
        Return Health
    ElseIf asValueName == "Magicka"
        Return Magicka
    ElseIf asValueName == "Stamina"
        Return Stamina
    EndIf
    Return 0
EndFunction

Function SetActorValue(String asValueName, Int aiValue)
    Scene.Sleep(0)
    If asValueName == "Health"
        Health = aiValue
    ElseIf asValueName == "Magicka"
        Magicka = aiValue
    ElseIf asValueName == "Stamina"
        Stamina = aiValue
    EndIf
EndFunction

Function DamageActorValue(String asValueName, Int aiDamage)
    Scene.Sleep(0)
    RestoreActorValue(asValueName, -aiDamage)
EndFunction

Function RestoreActorValue(String asValueName, Int aiAmount)
    Scene.Sleep(0)
    If asValueName == "Health"
        Health += aiAmount
    ElseIf asValueName == "Magicka"
        Magicka += aiAmount
    ElseIf asValueName == "Stamina"
        Stamina += aiAmount
    EndIf
EndFunction

Bool Function IsDead()
    Return Health <= 0
EndFunction

Function Kill(Actor akKiller = None)
    Scene.Sleep(0)
    Health = 0
    OnDeath(akKiller)
EndFunction

Bool Function IsInCombat()
    Scene.Sleep(0)
    Return Fighting
EndFunction
