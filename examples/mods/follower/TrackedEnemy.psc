Scriptname TrackedEnemy extends Actor
{Tells the tracker who has beaten it.}

FollowerTracker Property Tracker Auto
Form Property Kind Auto

Event OnDeath(Actor akKiller)
    If akKiller == Tracker.FollowerREF
        Tracker.Won(Kind)
    EndIf
EndEvent
