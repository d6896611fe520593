ScriptName FormList extends Form
{Stands for FormList, with up to 128 forms. The scene fills it by calls of AddForm.}

Form[] forms
Int size

Function AddForm(Form akForm)
    If !forms
        forms = New Form[128]
    EndIf
    If akForm && !HasForm(akForm)
        forms[size] = akForm
        size += 1
    EndIf
EndFunction

Function RemoveAddedForm(Form akForm)
    Int place = Find(akForm)
    If place >= 0
        size -= 1
        forms[place] = forms[size]
        forms[size] = None
    EndIf
EndFunction

Int Function GetSize()
    Return size
EndFunction

Form Function GetAt(Int aiIndex)
    If aiIndex < 0 || aiIndex >= size
        Return None
    EndIf
    Return forms[aiIndex]
EndFunction

Int Function Find(Form akForm)
    If !forms || !akForm
        Return -1
    EndIf
    Return forms.Find(akForm)
EndFunction

Bool Function HasForm(Form akForm)
    Return Find(akForm) >= 0
EndFunction

Function Revert()
    forms = None
    size = 0
EndFunction
