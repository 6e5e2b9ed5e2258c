-- A dissector for Wireshark: it shows the packets of a link (docs/LINK.md) in a capture of link type 250.
--
--     tshark -X lua_script:tools/wireshark/yasir.lua -d rtacser.data,yasir -r CAPTURE
--
-- It shows the frame, with the dissector of the frame's protocol, and the word and the tag of the
-- trailer. A record may have a frame and its trailer, or only one of them: some taps end a record at
-- the three silent ticks between the two. It has no key, so it doesn't say whether a tag is right.
local yasir = Proto("yasir", "YASIR link")
yasir.prefs.protocol = Pref.enum("Protocol", 1, "What the frames of the link are",
    { { 1, "Modbus RTU", 1 }, { 2, "DNP3", 2 } }, false)
yasir.prefs.profile = Pref.enum("Profile", 18, "What follows a frame on the link",
    { { 1, "y18", 18 }, { 2, "y24", 24 } }, false)

local frame = ProtoField.bytes("yasir.frame", "Frame")
local word = ProtoField.uint32("yasir.word", "Word (low bytes of the number)")
local tag = ProtoField.bytes("yasir.tag", "Tag")
local other = ProtoField.bytes("yasir.other", "Neither frame nor trailer")
yasir.fields = { frame, word, tag, other }

-- Whether the bytes end with their CRC of Modbus RTU.
local function has_modbus_crc(bytes)
    local crc = 0xffff
    for place = 0, bytes:len() - 3 do
        crc = bit.bxor(crc, bytes(place, 1):uint())
        for _ = 1, 8 do
            crc = bit.bxor(bit.rshift(crc, 1), bit.band(crc, 1) * 0xa001)
        end
    end
    return crc == bytes(bytes:len() - 2, 2):le_uint()
end

-- How many bytes at the start of a record are its frame, by the CRC in Modbus RTU and by the header
-- in DNP3, or 0 if it begins with no frame.
local function frame_length(bytes, trailer)
    local count = bytes:len()
    if yasir.prefs.protocol == 1 then
        for _, length in ipairs({ count, count - trailer }) do
            local is_long_enough = 4 <= length and length <= 256
            if is_long_enough and has_modbus_crc(bytes(0, length)) then return length end
        end
    elseif count >= 10 and bytes(0, 2):uint() == 0x0564 and bytes(2, 1):uint() >= 5 then
        local user = bytes(2, 1):uint() - 5
        local length = 10 + user + 2 * math.ceil(user / 16)
        if length <= count then return length end
    end
    return 0
end

function yasir.dissector(buffer, pinfo, tree)
    local bytes, trailer = buffer(), yasir.prefs.profile - 4
    local width = yasir.prefs.profile == 18 and 2 or 4
    local length = frame_length(bytes, trailer)
    local rest = bytes:len() - length
    local shown = tree:add(yasir, bytes)
    if rest == trailer then
        shown:add(word, bytes(length, width))
        shown:add(tag, bytes(length + width, trailer - width))
        pinfo.cols.info:set(("Trailer, word %d"):format(bytes(length, width):uint()))
    elseif rest > 0 then
        shown:add(other, bytes(length, rest))
    end
    -- The frame comes last, because its dissector ends this function if the frame isn't well-formed.
    if length > 0 then
        shown:add(frame, bytes(0, length))
        local inner = Dissector.get(yasir.prefs.protocol == 1 and "mbrtu" or "dnp3.udp")
        inner:call(bytes(0, length):tvb(), pinfo, tree)
    end
end

DissectorTable.get("rtacser.data"):add_for_decode_as(yasir)
