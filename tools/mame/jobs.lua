-- Run by MAME's -autoboot_script: the jobs of the file that MAME_JOBS names, one a line.
--   dasm IMAGE OUT START LENGTH   LENGTH bytes from START (hexadecimal) of IMAGE to OUT, by MAME's own disassembler
--   each IMAGE OUT START LENGTH   the same, begun anew at every address
--   walks IMAGE OUT FILE          a line of FILE is MILLISECONDS WORDS: the state is set and IMAGE is run so long, or until it
--                                 stands still. OUT has a line `T NUMBER` for each, then every instruction behind the state before
--                                 it; OUT.w has the same line, then what was written
-- WORDS are pc=, sp=, a=, psw= and so on, and AAA=V for memory, all hexadecimal. reads=AAA:V,V/.. gives what the reads of an
-- address get, in order, the last one for ever. What is not named is 0, but EXT is 8 (the memory is the rom) and SP 7F.
local machine = manager.machine
local cpu = machine.devices[":maincpu"]
local data, program = cpu.spaces["data"], cpu.spaces["program"]
local rom = machine.memory.regions[":bios"]
local debugger = machine.debugger
local states = {}               -- looked up once: a look costs more than a step of the CPU
for name, state in pairs(cpu.state) do states[name] = state end
local SLICE = 1                 -- milliseconds between two looks at whether a walk stands still
local HOME = 0xfff0             -- where the flash has a JMPF to itself
local log = nil                 -- where the taps write
local scripted = {}             -- the scripted reads of the walk at hand
local held = nil                -- the image that is in the rom
local left_rom, wrote_flash = false, true
taps = {}                       -- global, so that they are kept alive

local function items(tag)
    local found = {}
    for name, number in pairs(machine.devices[tag].items) do found[name] = emu.item(number) end
    return found
end
local flash, inside = items(":flash"), items(":maincpu")

local function load(file)
    if held == file then return end
    held = file
    local f = assert(io.open(file, "rb"))
    local s = f:read("a")
    f:close()
    s = s .. string.rep("\0", 65536 - #s)
    for i = 0, 65535, 4 do rom:write_u32(i, (string.unpack("<I4", s, i + 1))) end
end

local function put(shape, offset, value)
    log:write(string.format(shape, states.CURPC.value, offset, value))
end

taps[1] = data:install_write_tap(0, 0x1ff, "w", function(offset, value)
    if not log then return end
    if offset == 0x10d and value ~= 8 then left_rom = true end
    put("W %04X %03X %02X\n", offset, value)
end)
taps[2] = data:install_read_tap(0, 0xff, "r", function(offset)
    local s = scripted[offset]
    if not s or not log then return end
    s.at = s.at + 1
    local v = s[math.min(s.at, #s)]
    put("R %04X %03X %02X\n", offset, v)
    return v
end)
taps[3] = program:install_write_tap(0, 0xffff, "f", function(offset, value)
    wrote_flash = true
    if log then put("F %04X %04X %02X\n", offset, value) end
end)

-- The flash as every walk finds it: bytes that differ from address to address, each an instruction that does no harm, and the way home.
local HARMLESS = { 0x00, 0xc0, 0xd0, 0xe0, 0xf0, 0x30, 0x40, 0x04, 0x05, 0x84, 0x85, 0x94, 0xa4, 0xa5, 0xb4, 0xd4, 0xe4, 0xe5, 0xf4 }

local function fill_flash()
    wrote_flash = false
    flash["0/m_flash_mode"]:write(0, 0)
    flash["0/m_flash_master_lock"]:write(0, 0)
    flash["0/m_status"]:write(0, 0)
    local bytes = flash["0/m_data"]
    for i = 0, bytes.count - 1 do bytes:write(i, HARMLESS[(i * 7 + (i >> 8) * 13) % #HARMLESS + 1]) end
    for i, v in ipairs({ 0x21, HOME >> 8, HOME & 0xff }) do
        for page = 0, bytes.count - 1, 65536 do bytes:write(page + HOME + i - 1, v) end
    end
end

-- Back into the rom: the JMPF at HOME applies EXT. What is traced on the way stands behind a line H.
local function go_home()
    left_rom = false
    debugger:command("tracelog \"H\\n\"")
    states.EXT.value = 8
    states.PC.value = HOME
    emu.wait(0.0001)
end

local function script_reads(v)
    for a, values in v:gmatch("(%x+):([%x,]+)") do
        local s = { at = 0 }
        for one in values:gmatch("%x+") do s[#s + 1] = tonumber(one, 16) end
        scripted[tonumber(a, 16)] = s
    end
end

local function fresh(words, first)
    log, scripted = nil, {}
    if wrote_flash then fill_flash() end
    for _, name in ipairs({ "A", "B", "C", "PSW", "TRL", "TRH", "PC" }) do states[name].value = 0 end
    for i = 0, 0xff do inside["0/m_mram"]:write(i, 0) end
    inside["0/m_irq_lev"]:write(0, 0)
    inside["0/m_after_reti"]:write(0, 0)
    states.EXT.value = 8
    states.SP.value = 0x7f
    for i = first, #words do
        local k, v = words[i]:match("^(%w+)=(.*)$")
        local register = states[k:upper()]
        if k == "reads" then script_reads(v)
        elseif k:match("^%x%x%x?$") or not register then data:write_u8(tonumber(k, 16), tonumber(v, 16))
        else register.value = tonumber(v, 16) end
    end
end

local function parts(line)
    local w = {}
    for one in line:gmatch("%S+") do w[#w + 1] = one end
    return w
end

local function run(milliseconds)
    local left, last = milliseconds, -1
    while left > 0 do
        emu.wait(math.min(left, SLICE) / 1000)
        left = left - SLICE
        local pc = states.PC.value
        if pc == last then return end
        last = pc
    end
end

local jobs = {}

function jobs.dasm(w)
    debugger:command("dasm " .. w[3] .. ",0x" .. w[4] .. ",0x" .. w[5])     -- 0x: a, b and c alone are registers
end

function jobs.each(w)
    local out = assert(io.open(w[3], "w"))
    for a = tonumber(w[4], 16), tonumber(w[4], 16) + tonumber(w[5], 16) - 1 do
        debugger:command(string.format("dasm %s.one,0x%x,1", w[3], a))
        local f = assert(io.open(w[3] .. ".one"))
        out:write(f:read("l"), "\n")
        f:close()
    end
    out:close()
end

-- MAME parses this again at each step: few words make it fast. 100 to 107 are A, PSW, B, C, TRL, TRH, SP and PCON, 10D is EXT.
local STATE = "%08X %016X %02X %08X %016X%016X | "
local SHOWN = "totalcycles,dq@100,db@10d,dd@0,dq@20,dq@28"

function jobs.walks(w)
    debugger:command("trace " .. w[3] .. ",maincpu,noloop,{tracelog \"" .. STATE .. "\"," .. SHOWN .. "}")
    local out, n = assert(io.open(w[3] .. ".w", "w")), 0
    for line in io.lines(w[4]) do
        local words = parts(line)
        fresh(words, 2)
        out:write("T ", n, "\n")
        debugger:command(string.format("tracelog \"T %%d\\n\",0x%x", n))
        log = out
        run(tonumber(words[1]))
        log = nil
        if left_rom then go_home() end
        n = n + 1
    end
    debugger:command("trace off,maincpu")
    out:close()
end

local function all()
    for line in io.lines(os.getenv("MAME_JOBS")) do
        local w = parts(line)
        load(w[2])
        jobs[w[1]](w)
    end
    for _, t in ipairs(taps) do t:remove() end      -- MAME 0.251 crashes on exit otherwise
    print("jobs.lua: all done")
    machine:exit()
end

keep = coroutine.create(function()                  -- global, so that it is kept alive
    local good, what = pcall(all)
    if not good then
        print("jobs.lua: failed: " .. tostring(what))
        machine:exit()
    end
end)
coroutine.resume(keep)
