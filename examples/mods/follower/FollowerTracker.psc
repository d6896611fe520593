Scriptname FollowerTracker extends GameQuest
{Keeps a follower near the player and alive, and knows whom he has beaten.}

Actor Property PlayerREF Auto
Actor Property FollowerREF Auto
FormList Property Beaten Auto
GlobalVariable Property Deeds Auto
Int Property MaxDistance = 1500 Auto
Int Property HealPercent = 25 Auto

Event OnInit()
    RegisterForSingleUpdate(20)
EndEvent

Event OnUpdate()
    Actor player = PlayerREF
    If FollowerREF.GetDistance(player) > MaxDistance
        FollowerREF.MoveTo(player)
    EndIf
    Int missing = 100 - FollowerREF.GetActorValue("Health")
    If missing > 50 && !FollowerREF.IsInCombat()
        FollowerREF.RestoreActorValue("Health", missing * HealPercent / 100)
        Deeds.SetValueInt(Deeds.GetValueInt() + 1)
    EndIf
    RegisterForSingleUpdate(20)
EndEvent

Function Won(Form akEnemy)
    If !Beaten.HasForm(akEnemy)
        Beaten.AddForm(akEnemy)
        Screen.Notification("Beaten: " + Beaten.GetSize())
    EndIf
    Deeds.SetValueInt(Deeds.GetValueInt() + 1)
EndFunction
