-- Wireshark's view of the replication protocol (docs/PROTOCOL.md) on TCP port 7411; another port: -d tcp.port==PORT,wizhdulet.
--   tshark -X lua_script:share/wizhdulet.lua -r line.pcapng
--   tshark -X lua_script:share/wizhdulet.lua -r line.pcapng -Y wizhdulet.reason
local protocol = Proto("wizhdulet", "Wizhdulet replication")
local kinds = { "Hello", "Welcome", "Bind", "Batch", "Ack", "Nack", "Bound", "Checked" }
local parts = { [0] = "Commit", "Whole", "LastWhole" }
local reasons = { "StaleEpoch", "Diverged", "Lag", "Restarted" }
local changes = { "SetNextIncoming", "SetNextIncomingInFlight", "SetInFlight", "Record", "Record without message", "Reset", "SetCreatedAt", "SetMarks" }
local MOST = 67108864

local f = {}

-- A field by its kind and its name, which a filter has behind "wizhdulet.".
local function field(kind, name, ...) f[name] = ProtoField[kind]("wizhdulet." .. name, ...) end

field("uint32", "length", "Body length")
field("uint8", "kind", "Kind", base.DEC, kinds)
field("uint16", "version", "Version")
field("uint64", "epoch", "Epoch")
field("string", "node", "Node")
field("uint16", "app_kind", "Kind of application record")
field("bytes", "app_record", "Application record")
field("uint64", "incarnation", "Incarnation")
field("uint32", "handle", "Handle")
field("uint64", "max_lag", "Lag")
field("string", "begin", "Begin string")
field("string", "sender", "Sender")
field("string", "target", "Target")
field("string", "suffix", "Suffix")
field("uint64", "commit", "Commit number")
field("uint8", "part", "Part", base.DEC, parts)
field("uint8", "change", "Change", base.DEC, changes)
field("uint64", "outgoing", "Outgoing number")
field("uint64", "incoming", "Next incoming")
field("uint64", "in_flight", "In flight")
field("bytes", "message", "Message")
field("string", "stamp", "Since")
field("string", "marks", "Marks")
field("uint8", "reason", "Reason", base.DEC, reasons)
field("uint64", "last_outgoing", "last_outgoing", base.HEX)
protocol.fields = f

-- Reads fields one after the other, and shows each.
local function reader(buffer, tree)
    local at = 4
    local r = {}
    function r.number(field, length)
        local part = buffer(at, length)
        tree:add_le(field, part)
        at = at + length
        return length == 8 and part:le_uint64() or part:le_uint()
    end
    function r.count() at = at + 4; return buffer(at - 4, 4):le_uint() end
    function r.blob(field)
        local length = r.count()
        local part = length > 0 and buffer(at, length) or nil
        if part then tree:add(field, part) end
        at = at + length
        return part
    end
    function r.text(field) local part = r.blob(field); return part and part:string() or "" end
    function r.below(inner, words) local outer = tree; tree = tree:add(buffer(at, 1), words); inner(); tree = outer end
    function r.peek() return buffer(at, 1):uint() end
    return r
end

local function change(r)
    local kind = r.peek()
    local told = ""
    r.below(function()
        r.number(f.change, 1)
        if kind == 1 then told = " in " .. tostring(r.number(f.incoming, 8))
        elseif kind == 2 then told = " in " .. tostring(r.number(f.incoming, 8)) .. " flight " .. tostring(r.number(f.in_flight, 8))
        elseif kind == 3 then told = " flight " .. tostring(r.number(f.in_flight, 8))
        elseif kind == 4 then told = " out " .. tostring(r.number(f.outgoing, 8)); r.blob(f.message)
        elseif kind == 5 then told = " skip " .. tostring(r.number(f.outgoing, 8))
        elseif kind == 6 then told = " reset"
        elseif kind == 7 then told = " since " .. r.text(f.stamp)
        elseif kind == 8 then told = " marks " .. r.text(f.marks)
        else error("no change " .. kind) end
    end, changes[kind] or "?")
    return told
end

local function batch(r)
    local handle = r.number(f.handle, 4)
    r.number(f.epoch, 8)
    local commit = r.number(f.commit, 8)
    local told = (parts[r.number(f.part, 1)] or "?") .. " " .. handle .. " #" .. tostring(commit)
    for _ = 1, r.count() do told = told .. change(r) end
    for _ = 1, r.count() do r.number(f.app_kind, 2); r.blob(f.app_record) end
    return told
end

local bodies = {
    function(r)
        r.number(f.version, 2)
        local told = "Hello epoch " .. tostring(r.number(f.epoch, 8)) .. " node " .. r.text(f.node)
        for _ = 1, r.count() do r.number(f.app_kind, 2) end
        return told
    end,
    function(r)
        return "Welcome epoch " .. tostring(r.number(f.epoch, 8)) .. " incarnation " .. tostring(r.number(f.incarnation, 8))
    end,
    function(r)
        local told = "Bind " .. r.number(f.handle, 4)
        r.number(f.epoch, 8)
        local lag = r.number(f.max_lag, 8)
        return told .. " " .. r.text(f.begin) .. " " .. r.text(f.sender) .. " -> " .. r.text(f.target) .. " / " .. r.text(f.suffix) .. " lag " .. tostring(lag)
    end,
    batch,
    function(r) return "Ack " .. r.number(f.handle, 4) .. " #" .. tostring(r.number(f.commit, 8)) end,
    function(r) return "Nack " .. r.number(f.handle, 4) .. " " .. (reasons[r.number(f.reason, 1)] or "?") end,
    function(r)
        local told = "Bound " .. r.number(f.handle, 4) .. " out " .. tostring(r.number(f.outgoing, 8)) .. " in " .. tostring(r.number(f.incoming, 8))
        r.number(f.in_flight, 8)
        r.text(f.stamp)
        r.text(f.marks)
        r.number(f.last_outgoing, 8)
        return told
    end,
    function(r)
        local told = "Checked " .. r.number(f.handle, 4) .. " epoch " .. tostring(r.number(f.epoch, 8))
        return told .. " incarnation " .. tostring(r.number(f.incarnation, 8))
    end,
}

local function frame(buffer, pinfo, tree)
    local kind = buffer(4, 1):uint()
    local told = kinds[kind] or ("no kind " .. kind)
    local below = tree:add(protocol, buffer(), "Wizhdulet " .. told)
    below:add_le(f.length, buffer(0, 4))
    local r = reader(buffer, below)
    r.number(f.kind, 1)
    local whole, words = pcall(bodies[kind] or error, r)
    if not whole then
        below:add_expert_info(PI_MALFORMED, PI_ERROR, "a field reaches past the frame, or has an unknown byte")
        words = told .. " MALFORMED"
    end
    pinfo.cols.protocol = "WIZHDULET"
    pinfo.cols.info:append((pinfo.private["wizhdulet"] and "; " or "") .. words)
    pinfo.private["wizhdulet"] = "yes"
    return buffer:len()
end

local function length_of(buffer, _, offset)
    local length = buffer(offset, 4):le_uint()
    return length > 0 and length <= MOST and 4 + length or buffer:len() - offset
end

function protocol.dissector(buffer, pinfo, tree)
    if not pinfo.private["wizhdulet"] then pinfo.cols.info:clear() end
    dissect_tcp_pdus(buffer, tree, 5, length_of, frame)
    return buffer:len()
end

DissectorTable.get("tcp.port"):add(7411, protocol)

-- The copy of `wizhdulet standby` is the active's direction of the line, frame after frame: tshark -X lua_script:share/wizhdulet.lua -r COPY reads it too.
local copy = FileHandler.new("Wizhdulet copy", "wizhdulet", "The copy that a standby keeps", "rs")

local function record(file, into)
    local head = file:read(4)
    if not head or #head < 4 then return false end
    local b1, b2, b3, b4 = head:byte(1, 4)
    local length = b1 + 256 * (b2 + 256 * (b3 + 256 * b4))
    local body = length > 0 and length <= MOST and file:read(length)
    if not body or #body < length then return false end
    -- Wireshark takes no more of a packet.
    local shown = math.min(4 + length, 262144)
    into.rec_type = wtap_rec_types.PACKET
    into.captured_length = shown
    into.original_length = 4 + length
    into.data = (head .. body):sub(1, shown)
    return true
end

-- A copy begins with a Hello of this protocol, which lists no kinds.
function copy.read_open(file, capture)
    local head = file:read(19)
    if not head or #head < 19 or head:byte(5) ~= 1 or head:byte(7) ~= 0 then return false end
    local length, node = head:byte(1) + 256 * head:byte(2), head:byte(16) + 256 * head:byte(17)
    if head:byte(3) + head:byte(4) + head:byte(18) + head:byte(19) ~= 0 or length ~= 19 + node then return false end
    file:seek("set", 0)
    capture.encap = wtap_encaps.USER0
    return true
end

function copy.read(file, _, into)
    local at = file:seek()
    return record(file, into) and at or false
end

function copy.seek_read(file, _, into, at)
    file:seek("set", at)
    return record(file, into)
end

register_filehandler(copy)
local alone = Proto("wizhdulet_copy", "Wizhdulet copy")
function alone.dissector(buffer, pinfo, tree)
    pinfo.cols.info:clear()
    return frame(buffer, pinfo, tree)
end
DissectorTable.get("wtap_encap"):add(wtap_encaps.USER0, alone)
