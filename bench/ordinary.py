"""Ordinary scripts of any length for the benchmarks, Lua that does the same, and how the time of `compile` grows with them."""

import measure

MEBIBYTE = 1 << 20


def papyrus_function(number):
    last = "Return sum" if number == 0 else f"Return sum + Count{number - 1}(at, step)"
    return f"""Int Function Count{number}(Int amount, Int step = 1)
    ; counts up to the limit
    Int at = 0
    Int sum = 0
    While at < amount && sum <= Limit * 4
        If at % 3 == 0 || isOpen
            sum += at * step + 1
        ElseIf at > 100
            Debug.Trace(Label + " passed " + at)
        Else
            sum -= 1
        EndIf
        at += 1
    EndWhile
    total = total + sum
    {last}
EndFunction
"""


def papyrus_state(number):
    return f"""State Busy{number}
    Event OnBeginState()
        isOpen = False
        Debug.Trace("busy " + total)
    EndEvent
    Int Function Count{number}(Int amount, Int step = 1)
        Return 0
    EndFunction
EndState
"""


def papyrus(functions, name):
    head = f"""ScriptName {name} extends Quest
{{Counts what passes the gate.}}
Int Property Limit = 10 Auto
String Property Label = "gate" Auto
Int total = 0
Bool isOpen = True
"""
    parts = [head]
    parts += [papyrus_function(number) for number in range(functions)]
    parts += [papyrus_state(number) for number in range(functions // 20)]
    return "".join(parts)


def lua_function(number):
    last = "return sum" if number == 0 else f"return sum + M.count{number - 1}(at, step)"
    return f"""function M.count{number}(amount, step)
    -- counts up to the limit
    local at = 0
    local sum = 0
    while at < amount and sum <= limit * 4 do
        if at % 3 == 0 or isOpen then
            sum = sum + at * step + 1
        elseif at > 100 then
            print(label .. " passed " .. at)
        else
            sum = sum - 1
        end
        at = at + 1
    end
    total = total + sum
    {last}
end
"""


def lua_state(number):
    return f"""M.busy{number} = {{
    onBeginState = function()
        isOpen = false
        print("busy " .. total)
    end,
    count{number} = function(amount, step)
        return 0
    end,
}}
"""


def lua(functions):
    head = """-- Counts what passes the gate.
local limit = 10
local label = "gate"
local total = 0
local isOpen = true
local M = {}
"""
    parts = [head]
    parts += [lua_function(number) for number in range(functions)]
    parts += [lua_state(number) for number in range(functions // 20)]
    return "".join(parts)


def functions_of(text, size):
    """The most functions whose text stays within the size."""
    low, high = 1, 20000
    while low < high:
        middle = (low + high + 1) // 2
        if len(text(middle)) <= size:
            low = middle
        else:
            high = middle - 1
    return low


def growth(folder, name, text, whole, accepted=(0,)):
    """A quarter, a half and the whole, each beside the one before it. `text` gives the script of so many functions and of a name."""
    before = None
    for part in (4, 2, 1):
        script = f"Part{part}"
        folder.joinpath(f"{script}.psc").write_text(text(whole // part, script))
        seconds, memory = measure.best([measure.program(), "compile", f"{script}.psc"], folder, accepted)
        measure.row(f"{name}, 1/{part} MiB", seconds, memory, before)
        before = seconds


def many_scripts(folder, name, text, accepted=(0,)):
    """128 scripts and 256, each of four KiB, each set beside the one before it."""
    functions = functions_of(lambda count: text(count, "Script000"), 4096)
    before = None
    for count in (128, 256):
        files = [f"Script{number:03}.psc" for number in range(count)]
        for file in files:
            folder.joinpath(file).write_text(text(functions, file[:-4]))
        seconds, memory = measure.best([measure.program(), "compile"] + files, folder, accepted)
        measure.row(f"{name}, {count} scripts of 4 KiB", seconds, memory, before)
        before = seconds
