Scriptname DonationQuest extends GameQuest
{Knows what the temple's chests were given, and looks every five seconds whether it is enough.}

Int Property UpdateInterval = 50 Auto
Int Property Needed = 6 Auto
Int Property Total Auto

Event OnInit()
    RegisterForUpdate(UpdateInterval)
EndEvent

Function Give(Int aiCoins)
    Total += aiCoins
EndFunction

Event OnUpdate()
    If Total >= Needed && GetStage() < 20
        Screen.Notification("The temple has " + Total + " coins.")
        SetStage(20)
        UnregisterForUpdate()
    EndIf
EndEvent
