-- A Wireshark dissector of the link records of `olt run` (docs/PEERS.md): downstream maps and upstream bursts with reports.
-- Use: wireshark -X lua_script:docs/olt.lua -d tcp.port==7575,olt, or copy the file to the folder of personal Lua plugins.

local olt = Proto("olt", "Link records of the upstream scheduler olt (XG-PON)")

local UPSTREAM, DOWNSTREAM = 0x55, 0x44
-- Bytes of a tag and a frame, of a word, of an allocation structure, and of a burst record without its reports.
local HEAD, WORD, STRUCTURE, BURST = 9, 4, 8, 14
local MAX_REPORTS, MAX_STRUCTURES = 16, 512
local CONTINUES = 0xffff

local fields = {
    tag = ProtoField.uint8("olt.tag", "Record", base.HEX, { [UPSTREAM] = "upstream burst", [DOWNSTREAM] = "downstream map" }),
    frame = ProtoField.uint64("olt.frame", "Frame"),
    onu = ProtoField.uint16("olt.onu", "ONU-ID"),
    ind = ProtoField.uint16("olt.ind", "Ind", base.HEX),
    hec = ProtoField.bool("olt.hec", "HEC as sent"),
    reports = ProtoField.uint8("olt.reports", "Reports"),
    waiting = ProtoField.uint32("olt.waiting", "Waiting words"),
    garbled = ProtoField.bool("olt.garbled", "Garbled report"),
    structures = ProtoField.uint16("olt.structures", "Allocation structures"),
    messages = ProtoField.uint8("olt.messages", "Messages"),
    alloc = ProtoField.uint16("olt.alloc", "Alloc-ID"),
    dbru = ProtoField.bool("olt.dbru", "DBRu"),
    ploam = ProtoField.bool("olt.ploam", "PLOAMu"),
    start = ProtoField.uint16("olt.start", "StartTime"),
    continues = ProtoField.bool("olt.continues", "Continues the burst"),
    grant = ProtoField.uint16("olt.grant", "GrantSize"),
    fwi = ProtoField.bool("olt.fwi", "FWI"),
    profile = ProtoField.uint8("olt.profile", "BurstProfile"),
}
local list = {}
for _, field in pairs(fields) do
    list[#list + 1] = field
end
olt.fields = list

local malformed = ProtoExpert.new("olt.malformed", "Not a link record", expert.group.MALFORMED, expert.severity.ERROR)
local wrong_hec = ProtoExpert.new("olt.wrong_hec", "Bit errors", expert.group.CHECKSUM, expert.severity.WARN)
olt.experts = { malformed, wrong_hec }

-- Returns a bit of a range, the most significant first.
local function bit_of(range, place)
    return range:bitfield(place, 1)
end

-- Returns whether a word has a right HEC (ITU-T G.987.3): its bits but the last are a multiple of the generator polynomial
-- x^12+x^10+x^8+x^5+x^4+x^3+1, and the number of its ones is even.
local function has_right_hec(range)
    local GENERATOR = { 1, 0, 1, 0, 1, 0, 0, 1, 1, 1, 0, 0, 1 }
    local count, ones, bits = range:len() * 8, 0, {}
    for place = 0, count - 1 do
        bits[place] = bit_of(range, place)
        ones = ones + bits[place]
    end
    for place = 0, count - 1 - #GENERATOR do
        if bits[place] == 1 then
            for offset, bit in ipairs(GENERATOR) do
                bits[place + offset - 1] = (bits[place + offset - 1] + bit) % 2
            end
        end
    end
    for place = count - #GENERATOR, count - 2 do
        if bits[place] == 1 then
            return false
        end
    end
    return ones % 2 == 0
end

-- Returns whether the last byte of a report is the remainder of the others by x^8+x^2+x+1.
local function is_garbled(range)
    local GENERATOR, rest = { 1, 0, 0, 0, 0, 0, 1, 1, 1 }, {}
    for place = 0, 31 do
        rest[place] = bit_of(range, place)
    end
    for place = 0, 23 do
        if rest[place] == 1 then
            for offset, bit in ipairs(GENERATOR) do
                rest[place + offset - 1] = (rest[place + offset - 1] + bit) % 2
            end
        end
    end
    for place = 24, 31 do
        if rest[place] == 1 then
            return true
        end
    end
    return false
end

local function add_hec(tree, range)
    local is_right = has_right_hec(range)
    local item = tree:add(fields.hec, range, is_right)
    if not is_right then
        item:add_proto_expert_info(wrong_hec)
    end
end

-- Returns the length of the record at an offset, or nil and the bytes that are missing, or nil and false if there is none.
local function length_at(buffer, offset)
    local tag, left = buffer(offset, 1):uint(), buffer:len() - offset
    if tag == UPSTREAM then
        if left < BURST then
            return nil, BURST - left
        end
        local count = buffer(offset + BURST - 1, 1):uint()
        if count < 1 or count > MAX_REPORTS then
            return nil, false
        end
        return BURST + count * WORD
    elseif tag == DOWNSTREAM then
        if left < HEAD + WORD then
            return nil, HEAD + WORD - left
        end
        local count = buffer(offset + HEAD, WORD):bitfield(0, 11)
        if count > MAX_STRUCTURES then
            return nil, false
        end
        return HEAD + WORD + count * STRUCTURE
    end
    return nil, false
end

local function add_burst(tree, range)
    local header = range(HEAD, WORD)
    tree:add(fields.onu, header(0, 2), header:bitfield(0, 10))
    tree:add(fields.ind, header(1, 2), header:bitfield(10, 9))
    add_hec(tree, header)
    local count = range(BURST - 1, 1):uint()
    tree:add(fields.reports, range(BURST - 1, 1))
    for place = 0, count - 1 do
        local report = range(BURST + place * WORD, WORD)
        tree:add(fields.waiting, report(0, 3))
        tree:add(fields.garbled, report, is_garbled(report))
    end
    return string.format("burst of ONU %d, %d reports", header:bitfield(0, 10), count)
end

local function add_structure(tree, range)
    local alloc, start = range:bitfield(0, 14), range(2, 2):uint()
    local branch = tree:add(range, string.format("Alloc-ID %d, grant %d", alloc, range(4, 2):uint()))
    branch:add(fields.alloc, range(0, 2), alloc)
    branch:add(fields.dbru, range(1, 1), range:bitfield(14, 1) == 1)
    branch:add(fields.ploam, range(1, 1), range:bitfield(15, 1) == 1)
    if start == CONTINUES then
        branch:add(fields.continues, range(2, 2), true)
    else
        branch:add(fields.start, range(2, 2))
    end
    branch:add(fields.grant, range(4, 2))
    branch:add(fields.fwi, range(6, 1), range:bitfield(48, 1) == 1)
    branch:add(fields.profile, range(6, 1), range:bitfield(49, 2))
    add_hec(branch, range)
end

local function add_map(tree, range)
    local head = range(HEAD, WORD)
    local count = head:bitfield(0, 11)
    tree:add(fields.structures, head(0, 2), count)
    tree:add(fields.messages, head(1, 2), head:bitfield(11, 8))
    add_hec(tree, head)
    for place = 0, count - 1 do
        add_structure(tree, range(HEAD + WORD + place * STRUCTURE, STRUCTURE))
    end
    return string.format("map of %d structures", count)
end

-- Shows a record. Returns what it is, in words.
local function add_record(tree, range)
    local branch = tree:add(olt, range)
    branch:add(fields.tag, range(0, 1))
    branch:add(fields.frame, range(1, 8))
    local what = range(0, 1):uint() == UPSTREAM and add_burst(branch, range) or add_map(branch, range)
    local text = string.format("frame %s %s", range(1, 8):uint64():tonumber(), what)
    branch:append_text(": " .. text)
    return text
end

function olt.dissector(buffer, packet, tree)
    local offset, told = 0, {}
    while offset < buffer:len() do
        local length, missing = length_at(buffer, offset)
        if missing == false then
            tree:add(olt, buffer(offset)):add_proto_expert_info(malformed)
            return
        end
        local left = buffer:len() - offset
        if length == nil or length > left then
            packet.desegment_offset = offset
            packet.desegment_len = length and length - left or missing
            break
        end
        told[#told + 1] = add_record(tree, buffer(offset, length))
        offset = offset + length
    end
    packet.cols.protocol = "OLT"
    if #told > 0 then
        packet.cols.info = table.concat(told, "; ")
    end
    return buffer:len()
end

DissectorTable.get("tcp.port"):add_for_decode_as(olt)
