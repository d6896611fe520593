-- The work of `papyrus sample N`: N workers, each of which adds its number to a hub's total a thousand times. The hub is
-- locked, and those that wait for it stand in one line. Workers are coroutines, and a turn resumes one of them, in rounds.
-- A turn ends where a worker asks for the hub, where it leaves the hub, where it ends a pass, and where it is done.

local PASSES = 1000

local workers = tonumber(arg[1])
local yield = coroutine.yield

local total = 0

-- Those that wait for the hub, the first at `first`, and the one that has it.
local line, first, last = {}, 1, 0
local owner

local function work(number)
    for _ = 1, PASSES do
        last = last + 1
        line[last] = number
        yield(true)
        owner = number
        line[first] = nil
        first = first + 1
        total = total + number
        owner = nil
        yield(false)
        yield(false)
    end
end

-- Each worker's coroutine, and whether the worker waits for the hub. A coroutine returns that of its worker, and nil at its end.
local threads, waits = {}, {}
for number = 0, workers - 1 do
    threads[number] = coroutine.wrap(work)
    waits[number] = false
end

local turns, left = 0, workers
while left > 0 do
    for number = 0, workers - 1 do
        local thread = threads[number]
        if thread and (not waits[number] or (not owner and line[first] == number)) then
            turns = turns + 1
            local is_waiting = thread(number)
            waits[number] = is_waiting
            if is_waiting == nil then
                threads[number] = nil
                left = left - 1
            end
        end
    end
end

print("workers " .. workers)
print("turns " .. turns)
print("total " .. total)
