Scriptname PullChain extends Reference
{Opens a portcullis for a while. A chain that was pulled can't be pulled again until it is through.}

Reference Property Portcullis Auto
Actor Property PlayerREF Auto
Int Property OpenSeconds = 25 Auto
Int Property Pulls Auto

Auto State Waiting
    Event OnActivate(ObjectReference akActionRef)
        PlayAnimationAndWait("Pull", "Done")
        GotoState("Busy")
        Pulls += 1
        Portcullis.Disable()
        Scene.Sleep(OpenSeconds)
        Portcullis.Enable()
        GotoState("Waiting")
    EndEvent
EndState

State Busy
    Event OnActivate(ObjectReference akActionRef)
        If akActionRef == PlayerREF
            Screen.Notification("The chain won't move.")
        EndIf
    EndEvent
EndState
