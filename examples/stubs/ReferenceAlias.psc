ScriptName ReferenceAlias
{Stands for ReferenceAlias: the scene sets what it is filled with.}

ObjectReference Property Filled Auto
GameQuest Property OwningQuest Auto

Event OnInit()
EndEvent

ObjectReference Function GetReference()
    Return Filled
EndFunction

Actor Function GetActorReference()
    Return Filled as Actor
EndFunction

GameQuest Function GetOwningQuest()
    Return OwningQuest
EndFunction

Function ForceRefTo(ObjectReference akNewRef)
    Filled = akNewRef
EndFunction

Function Clear()
    Filled = None
EndFunction
