Scriptname DonationChest extends Reference
{A chest of the temple. It tells the quest what it is given.}

DonationQuest Property Donations Auto
MiscObject Property Gold001 Auto
Actor Property PlayerREF Auto

Event OnItemAdded(Form akBaseItem, int aiItemCount, ObjectReference akItemReference, ObjectReference akSourceContainer)
    If akBaseItem == Gold001
        Donations.Give(aiItemCount)
        If akSourceContainer == PlayerREF
            Screen.Notification("You gave " + aiItemCount + " coins.")
        EndIf
    EndIf
EndEvent
