-- The death of c/death.c, from Lua: `lua5.4 c/death.lua`, with ref_lua.so where `require` finds it.
local ref_lua = require "ref_lua"

-- Prints a row, whose reply must begin with the kind and the number that are given.
local function told(row, kind, number)
    print(row)
    local due, said = row:match(" : (.*)"), number and kind .. " " .. number or kind
    assert(due:sub(1, #said) == said, said)
end

local world = ref_lua.world(1, 1, 1, 8, 10, 0)
told("m0 new s0 0 : object 1", world:new(0, 0, 0))
told("m0 weak s1 s0 q0 0 : object 2", world:weak(0, 1, 0, 0, 0))
told("m0 drop s0 : ok", world:drop(0, 0))
told("begin 5 normal : cycle 1", world:begin(5, 0))
told("w0 scan : scanned 2", world:scan(0))
told("w0 scan : none", world:scan(0))
told("endmark : doomed 1", world:end_mark())
told("m0 get s2 s1 : null", world:get(0, 2, 1))
told("w0 clearnext : cleared 2", world:clear_next(0))
told("endclear : ok", world:end_clear())
told("w0 hand : notice 2 q0 cycle 1 w0", world:hand(0))
told("w0 put : added 0", world:worker_put(0))
told("w0 sweep : swept 1", world:sweep(0))
told("endsweep : ok", world:end_sweep())
told("m0 poll q0 : took 2", world:poll(0, 0))
told("m0 adopt s2 : object 2", world:adopt(0, 2))

-- What can't be done is answered; a number that no step has is an error.
assert(world:drop(8, 0) == "refused" and not pcall(world.drop, world, -1, 0))
-- Worlds that nothing holds end as Lua collects. The last one ends with Lua's state.
for _ = 1, 100 do ref_lua.world(1, 1, 1, 65536, 0, 0) end
collectgarbage()
