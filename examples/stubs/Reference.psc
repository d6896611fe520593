ScriptName Reference extends ObjectReference
{Stands for ObjectReference with its functions and events, since the ObjectReference of this program has none but OnInit.
Each call that the game makes natively lets go of the instance (Scene.Sleep(0)), as the game's does.}

ObjectReference Property LinkedRef Auto
{What GetLinkedRef gives: the scene sets it.}

Bool Property Disabled Auto
{What IsDisabled gives.}

Form[] things
Int[] counts
Bool registered
Bool registeredOnce

; The events that the game sends. A scene's call sends them here.
Event OnActivate(ObjectReference akActionRef)
EndEvent

Event OnLoad()
EndEvent

Event OnCellAttach()
EndEvent

Event OnTriggerEnter(ObjectReference akActionRef)
EndEvent

Event OnItemAdded(Form akBaseItem, Int aiItemCount, ObjectReference akItemReference, ObjectReference akSourceContainer)
EndEvent

Event OnUpdate()
EndEvent

Bool Function Activate(ObjectReference akActivator, Bool abDefaultProcessingOnly = False)
    OnActivate(akActivator)
    Return True
EndFunction

ObjectReference Function GetLinkedRef()
    Return LinkedRef
EndFunction

; What it holds: up to 128 kinds of things.
Function AddItem(Form akItemToAdd, Int aiCount = 1, Bool abSilent = False)
    Scene.Sleep(0)
    If !things
        things = New Form[128]
        counts = New Int[128]
    EndIf
    Int place = things.Find(akItemToAdd)
    If place < 0
        place = things.Find(None)
        things[place] = akItemToAdd
    EndIf
    counts[place] = counts[place] + aiCount
EndFunction

Function RemoveItem(Form akItemToRemove, Int aiCount = 1, Bool abSilent = False, ObjectReference akOtherContainer = None)
    Scene.Sleep(0)
    Int place = -1
    If things
        place = things.Find(akItemToRemove)
    EndIf
    If place >= 0
        If aiCount > counts[place]
            aiCount = counts[place]
        EndIf
        counts[place] = counts[place] - aiCount
        If counts[place] == 0
            things[place] = None
        EndIf
        If akOtherContainer
            (akOtherContainer as Reference).AddItem(akItemToRemove, aiCount, abSilent)
        EndIf
    EndIf
EndFunction

Int Function GetItemCount(Form akItem)
    If !things || things.Find(akItem) < 0
        Return 0
    EndIf
    Return counts[things.Find(akItem)]
EndFunction

Function Enable(Bool abFadeIn = False)
    Scene.Sleep(0)
    Disabled = False
EndFunction

Function Disable(Bool abFadeOut = False)
    Scene.Sleep(0)
    Disabled = True
EndFunction

Bool Function IsDisabled()
    Return Disabled
EndFunction

Function MoveTo(ObjectReference akTarget, Int aiXOffset = 0, Int aiYOffset = 0, Int aiZOffset = 0, Bool abMatchRotation = True)
    Scene.Sleep(0)
    Debug.Trace(Self + " moves to " + akTarget)
EndFunction

Bool Function PlayAnimation(String asAnimation)
    Debug.Trace(Self + " plays " + asAnimation)
    Return True
EndFunction

Bool Function PlayAnimationAndWait(String asAnimation, String asEventName)
    Debug.Trace(Self + " plays " + asAnimation)
    Scene.Sleep(10)
    Return True
EndFunction

Int Function GetDistance(ObjectReference akOther)
    Return NextDistance()
EndFunction

; A native takes no instance, so GetDistance has a body and calls this one. The scene's tape says how far it is each time.
Int Function NextDistance() Native

; Updates. The scene calls Tick in place of the game's timer.
Function RegisterForUpdate(Int aiTurns)
    Scene.Sleep(0)
    registered = True
EndFunction

Function RegisterForSingleUpdate(Int aiTurns)
    Scene.Sleep(0)
    registeredOnce = True
EndFunction

Function UnregisterForUpdate()
    Scene.Sleep(0)
    registered = False
    registeredOnce = False
EndFunction

Function Tick()
    If registered || registeredOnce
        registeredOnce = False
        OnUpdate()
    EndIf
EndFunction
