-- Shows GRASP (RFC 8990) in Wireshark and tshark: a dissector for UDP and TCP.
--
-- Data items (RFC 8949) are read as grasp_replay reads them, with definite and indefinite lengths and nested at most 16
-- deep. The info column and the field grasp.line have the line that `grasp_replay show` writes for a message. What is
-- wrong is told by its name and place, counted from the first byte of the item in which it stands.
--
-- Licensed under Apache-2.0 or MIT, at your choice.

local grasp = Proto("grasp", "Generic Autonomic Signaling Protocol")

set_plugin_info({ version = "0.1.0", description = "GRASP (RFC 8990)" })

-- Names and fields.

local TYPES = {
    [0] = "M_NOOP", [1] = "M_DISCOVERY", [2] = "M_RESPONSE", [3] = "M_REQ_NEG", [4] = "M_REQ_SYN", [5] = "M_NEGOTIATE",
    [6] = "M_END", [7] = "M_WAIT", [8] = "M_SYNCH", [9] = "M_FLOOD", [99] = "M_INVALID",
}
local WORDS = {
    [0] = "noop", [1] = "discovery", [2] = "response", [3] = "request-neg", [4] = "request-syn", [5] = "negotiate",
    [6] = "end", [7] = "wait", [8] = "synch", [9] = "flood", [99] = "invalid",
}
local OPTIONS = {
    [100] = "O_DIVERT", [101] = "O_ACCEPT", [102] = "O_DECLINE", [103] = "O_IPv6_LOCATOR", [104] = "O_IPv4_LOCATOR",
    [105] = "O_FQDN_LOCATOR", [106] = "O_URI_LOCATOR",
}
local PROTOS = { [6] = "tcp", [17] = "udp" }

local field = {
    line = ProtoField.string("grasp.line", "Line", base.ASCII, "The line that grasp_replay show writes"),
    type = ProtoField.uint8("grasp.type", "Type", base.DEC, TYPES),
    session = ProtoField.uint32("grasp.session", "Session", base.DEC),
    initiator = ProtoField.bytes("grasp.initiator", "Initiator"),
    initiator_ipv4 = ProtoField.ipv4("grasp.initiator.ipv4", "IPv4 address"),
    initiator_ipv6 = ProtoField.ipv6("grasp.initiator.ipv6", "IPv6 address"),
    ttl = ProtoField.uint32("grasp.ttl", "Lifetime (ms)", base.DEC),
    waiting_time = ProtoField.uint32("grasp.waiting_time", "Waiting time (ms)", base.DEC),
    objective = ProtoField.string("grasp.objective", "Objective"),
    name = ProtoField.string("grasp.objective.name", "Name", base.UNICODE),
    flags = ProtoField.uint8("grasp.objective.flags", "Flags", base.DEC),
    flag_disc = ProtoField.bool("grasp.objective.flags.disc", "F_DISC", 8, nil, 0x01),
    flag_neg = ProtoField.bool("grasp.objective.flags.neg", "F_NEG", 8, nil, 0x02),
    flag_synch = ProtoField.bool("grasp.objective.flags.synch", "F_SYNCH", 8, nil, 0x04),
    flag_dry = ProtoField.bool("grasp.objective.flags.neg_dry", "F_NEG_DRY", 8, nil, 0x08),
    loop_count = ProtoField.uint8("grasp.objective.loop_count", "Loop count", base.DEC),
    value = ProtoField.string("grasp.objective.value", "Value"),
    divert = ProtoField.string("grasp.divert", "Divert"),
    locator = ProtoField.string("grasp.locator", "Locator"),
    locator_type = ProtoField.uint8("grasp.locator.type", "Type", base.DEC, OPTIONS),
    locator_ipv6 = ProtoField.ipv6("grasp.locator.ipv6", "IPv6 address"),
    locator_ipv4 = ProtoField.ipv4("grasp.locator.ipv4", "IPv4 address"),
    locator_fqdn = ProtoField.string("grasp.locator.fqdn", "Name", base.UNICODE),
    locator_uri = ProtoField.string("grasp.locator.uri", "URI", base.UNICODE),
    locator_proto = ProtoField.uint8("grasp.locator.proto", "Protocol", base.DEC, PROTOS),
    locator_port = ProtoField.uint16("grasp.locator.port", "Port", base.DEC),
    accept = ProtoField.string("grasp.accept", "Accept"),
    decline = ProtoField.string("grasp.decline", "Decline"),
    reason = ProtoField.string("grasp.decline.reason", "Reason", base.UNICODE),
    detail = ProtoField.string("grasp.invalid.detail", "Detail"),
    diagnostic = ProtoField.string("grasp.diagnostic", "Diagnostic notation", base.UNICODE),
    fault = ProtoField.string("grasp.fault", "Fault"),
    fault_at = ProtoField.uint32("grasp.fault.at", "Place", base.DEC),
    fault_frame = ProtoField.framenum("grasp.fault.frame", "Fault in frame", base.NONE),
}
grasp.fields = field

-- Each fault: the name of its expert info, what that says, and its group and severity.
local FAULTS = {}
for name, each in pairs({
    ["malformed"] = { "grasp.malformed", "Malformed item", "MALFORMED", "ERROR" },
    ["not text"] = { "grasp.not_text", "Text that isn't UTF-8", "MALFORMED", "ERROR" },
    ["too deep"] = { "grasp.too_deep", "Nested more than 16 deep", "MALFORMED", "ERROR" },
    ["too long"] = { "grasp.too_long", "Longer than a message may be", "MALFORMED", "ERROR" },
    ["not a message"] = { "grasp.not_a_message", "Item that is no message", "PROTOCOL", "ERROR" },
    ["truncated"] = { "grasp.truncated", "Item that ends too early", "MALFORMED", "ERROR" },
    ["trailing"] = { "grasp.trailing", "Bytes after the message of a datagram", "MALFORMED", "ERROR" },
    ["after a fault"] = { "grasp.after_a_fault", "Bytes after a fault of their stream", "PROTOCOL", "WARN" },
}) do
    FAULTS[name] = ProtoExpert.new(each[1], each[2], expert.group[each[3]], expert.severity[each[4]])
end
grasp.experts = FAULTS

grasp.prefs.udp_ports = Pref.range("UDP ports", "7017", "Ports of datagrams", 65535)
grasp.prefs.tcp_ports = Pref.range("TCP ports", "7017", "Ports of streams", 65535)
grasp.prefs.limit = Pref.uint("Longest message", 2048, "Bytes that a message may have")

-- Data items. An item is a table with its place `at`, the place `stop` behind it, its major type `major`, its argument as
-- a number `number` and as 16 digits `digits`, and the parts of its kind. Places are counted from 0.

local DEEPEST = 16

--- Ends the reading: the bytes can't go on to an item at this place, or they end there.
local function fail(name, at)
    error({ name = name, at = at }, 0)
end

local function byte_at(octets, at)
    return octets:byte(at + 1) or fail("truncated", #octets)
end

--- The argument of a head as a number and as digits, and the place behind it. Numbers from 2^53 on are rounded.
local function argument_at(octets, at, info)
    if info < 24 then
        return info, ("%016x"):format(info), at + 1
    end
    local width, number, digits = math.floor(2 ^ (info - 24)), 0.0, ""
    for place = at + 1, at + width do
        local byte = byte_at(octets, place)
        number, digits = number * 256 + byte, digits .. ("%02x"):format(byte)
    end
    return number, ("0"):rep(16 - #digits) .. digits, at + 1 + width
end

--- For a lead byte: how many bytes follow, and the range of the first of these; nothing where it is none.
local function character_of(lead)
    if lead < 0x80 then return 0 end
    if lead >= 0xc2 and lead <= 0xdf then return 1, 0x80, 0xbf end
    if lead == 0xe0 then return 2, 0xa0, 0xbf end
    if lead == 0xed then return 2, 0x80, 0x9f end
    if lead >= 0xe1 and lead <= 0xef then return 2, 0x80, 0xbf end
    if lead == 0xf0 then return 3, 0x90, 0xbf end
    if lead >= 0xf1 and lead <= 0xf3 then return 3, 0x80, 0xbf end
    if lead == 0xf4 then return 3, 0x80, 0x8f end
    return nil
end

--- Fails at the first byte with which the text up to `stop` isn't UTF-8.
local function check_text(octets, at, stop)
    while at < stop do
        local follow, low, high = character_of(byte_at(octets, at))
        if not follow or at + follow >= stop then
            fail("not text", at)
        end
        for place = at + 1, at + follow do
            local byte = byte_at(octets, place)
            if byte < low or byte > high then
                fail("not text", place)
            end
            low, high = 0x80, 0xbf
        end
        at = at + 1 + follow
    end
end

--- The bytes of a string's content, which begins at this place.
local function content_at(octets, major, at, length)
    if major == 3 then
        check_text(octets, at, at + length)
    end
    if at + length > #octets then
        fail("truncated", #octets)
    end
    return octets:sub(at + 1, at + length)
end

--- The chunks of a string of indefinite length, joined, and the place behind its break.
local function chunks_at(octets, major, at)
    local chunks = {}
    while byte_at(octets, at) ~= 0xff do
        local initial = byte_at(octets, at)
        local info = initial % 32
        if math.floor(initial / 32) ~= major or info >= 28 then
            fail("malformed", at)
        end
        local length, _, from = argument_at(octets, at, info)
        chunks[#chunks + 1] = content_at(octets, major, from, length)
        at = from + length
    end
    return table.concat(chunks), at + 1
end

local item_at

--- The parts of an array or a map from this place on, and the place behind the last one, or behind the break.
local function parts_at(octets, at, count, is_open, is_map, depth)
    local parts = {}
    while is_open or #parts < count do
        if is_open and byte_at(octets, at) == 0xff and not (is_map and #parts % 2 == 1) then
            return parts, at + 1
        end
        parts[#parts + 1] = item_at(octets, at, depth)
        at = parts[#parts].stop
    end
    return parts, at
end

local function depth_of(parts)
    local deepest = 0
    for _, part in ipairs(parts) do
        deepest = math.max(deepest, part.depth)
    end
    return deepest + 1
end

--- Fails where no item begins with this byte inside so many arrays, maps and tags.
local function check_initial(at, major, info, depth)
    if info >= 28 and info <= 30 or info == 31 and (major < 2 or major > 5) then
        fail("malformed", at)
    end
    if major >= 4 and major <= 6 and depth >= DEEPEST then
        fail("too deep", at)
    end
end

--- Reads what follows the head of an array, a map or a tag.
local function read_parts(octets, item, from, is_open, depth)
    local count = item.major == 6 and 1 or item.number * (item.major == 5 and 2 or 1)
    item.parts, item.stop = parts_at(octets, from, count, is_open, item.major == 5, depth + 1)
    item.depth = depth_of(item.parts)
end

--- The item that begins at this place, inside so many arrays, maps and tags.
item_at = function(octets, at, depth)
    local initial = byte_at(octets, at)
    local major, info = math.floor(initial / 32), initial % 32
    check_initial(at, major, info, depth)
    local is_open = info == 31
    local item = { at = at, major = major, info = info, depth = 0, number = 0, digits = ("0"):rep(16) }
    local from = at + 1
    if not is_open then
        item.number, item.digits, from = argument_at(octets, at, info)
    end
    item.stop = from
    if major == 7 and info == 24 and item.number < 32 then
        fail("malformed", at + 1)
    elseif (major == 2 or major == 3) and is_open then
        item.content, item.stop = chunks_at(octets, major, from)
    elseif major == 2 or major == 3 then
        item.content, item.from = content_at(octets, major, from, item.number), from
        item.stop = from + item.number
    elseif major >= 4 and major <= 6 then
        read_parts(octets, item, from, is_open, depth)
    end
    return item
end

--- The item at the beginning of the bytes; or the name and the place of what is wrong.
local function read_item(octets, limit)
    local given = #octets >= limit and octets:sub(1, limit) or octets
    local whole, result = pcall(item_at, given, 0, 0)
    if whole then return result end
    if type(result) ~= "table" then
        error(result, 0)
    end
    if result.name == "truncated" and #octets >= limit then
        return nil, "too long", 0
    end
    return nil, result.name, result.at
end

-- Items in words.

local function hex_of(bytes)
    return (bytes:gsub(".", function(byte)
        return ("%02x"):format(byte:byte())
    end))
end

--- The digits of the shortest head; a number below 2^53 needs no digits of its own.
local function head_of(major, number, digits)
    local first = major * 32
    digits = digits or ("%016x"):format(number)
    if number < 24 then return ("%02x"):format(first + math.floor(number)) end
    if number < 256 then return ("%02x"):format(first + 24) .. digits:sub(15) end
    if number < 65536 then return ("%02x"):format(first + 25) .. digits:sub(13) end
    if number < 4294967296 then return ("%02x"):format(first + 26) .. digits:sub(9) end
    return ("%02x"):format(first + 27) .. digits
end

--- The digits of an item's shortest encoding (RFC 8949, section 4.2.1), with floats and pairs as they are.
local function shortest(item)
    if item.content then
        return head_of(item.major, #item.content) .. hex_of(item.content)
    elseif item.parts then
        local out = {}
        for place, part in ipairs(item.parts) do
            out[place] = shortest(part)
        end
        local head = item.major == 6 and head_of(6, item.number, item.digits)
            or head_of(item.major, item.major == 5 and math.floor(#out / 2) or #out)
        return head .. table.concat(out)
    elseif item.major == 7 and item.info >= 25 then
        return ("%02x"):format(0xe0 + item.info) .. item.digits:sub(17 - 2 * 2 ^ (item.info - 24))
    end
    return head_of(item.major, item.number, item.digits)
end

--- The word of a text: an apostrophe and its bytes.
local function text_word(bytes)
    return "'" .. bytes:gsub("[^!-$&-~]", function(byte)
        return ("%%%02x"):format(byte:byte())
    end)
end

local function number_word(item)
    return ("%.0f"):format(item.number)
end

local EXPONENT_BITS = { [25] = 5, [26] = 8, [27] = 11 }

--- A float's number in words (RFC 8949, section 8).
local function float_word(item)
    local bits = EXPONENT_BITS[item.info]
    local bias, fraction = 2 ^ (bits - 1) - 1, 2 ^ (item.info - 21) - 1 - bits
    local digits = item.digits:sub(17 - 2 * 2 ^ (item.info - 24))
    local front = tonumber(digits:sub(1, 4), 16)
    local sign = front >= 32768 and -1 or 1
    local exponent = math.floor(front % 32768 / 2 ^ (15 - bits))
    local rest = front % 2 ^ (15 - bits)
    for place = 5, #digits do
        rest = rest * 16 + tonumber(digits:sub(place, place), 16)
    end
    if exponent == 2 ^ bits - 1 then
        return rest > 0 and "NaN" or sign < 0 and "-Infinity" or "Infinity"
    end
    local number = rest / 2 ^ fraction
    number = exponent > 0 and (1 + number) * 2.0 ^ (exponent - bias) or number * 2.0 ^ (1 - bias)
    local words = ("%.17g"):format(sign * number)
    return words:find("[.e]") and words or words .. ".0"
end

local SIMPLE = { [20] = "false", [21] = "true", [22] = "null", [23] = "undefined" }

--- The whole number of an item; from 2^53 on in hexadecimal digits, since it would be rounded.
local function whole_word(item)
    if item.number < 2 ^ 53 then
        return item.major == 1 and ("-%.0f"):format(item.number + 1) or number_word(item)
    end
    return (item.major == 1 and "-1-" or "") .. "0x" .. item.digits
end

--- An item in diagnostic notation (RFC 8949, section 8).
local function diagnostic(item)
    if item.major <= 1 then return whole_word(item) end
    if item.major == 2 then return "h'" .. hex_of(item.content) .. "'" end
    if item.major == 3 then return '"' .. item.content:gsub('[%c"\\]', function(byte)
        return byte:find("%c") and ("\\u%04x"):format(byte:byte()) or "\\" .. byte
    end) .. '"' end
    if item.major == 7 then
        return item.info >= 25 and float_word(item) or SIMPLE[item.number] or "simple(" .. number_word(item) .. ")"
    end
    local out = {}
    for place, part in ipairs(item.parts) do
        out[place] = diagnostic(part)
    end
    if item.major == 4 then return "[" .. table.concat(out, ", ") .. "]" end
    if item.major == 6 then return whole_word(item) .. "(" .. out[1] .. ")" end
    local pairs_out = {}
    for place = 1, #out, 2 do
        pairs_out[#pairs_out + 1] = out[place] .. ": " .. out[place + 1]
    end
    return "{" .. table.concat(pairs_out, ", ") .. "}"
end

-- Messages. Each reader answers nothing where the item isn't of its layout.

local DEEPEST_VALUE = 13

local function is_number(item, most)
    return item ~= nil and item.major == 0 and item.number <= most
end

local function is_text(item)
    return item ~= nil and item.major == 3
end

local function is_bytes(item, length)
    return item ~= nil and item.major == 2 and #item.content == length
end

local function is_null(item)
    return item ~= nil and item.major == 7 and item.info == 22
end

--- Whether the item is an array that begins with this number.
local function is_option(item, number)
    return item.major == 4 and is_number(item.parts[1], 255) and item.parts[1].number == number
end

local function objective_of(item)
    local parts = item and item.major == 4 and item.parts or {}
    local fits = (#parts == 3 or #parts == 4 and parts[4].depth <= DEEPEST_VALUE)
        and is_text(parts[1]) and is_number(parts[2], 15) and is_number(parts[3], 255)
    return fits and { item = item, name = parts[1], flags = parts[2], loops = parts[3], value = parts[4] } or nil
end

local function is_proto(item)
    return is_number(item, 17) and PROTOS[item.number] ~= nil
end

local function locator_of(item)
    local parts = item and item.major == 4 and item.parts or {}
    if #parts ~= 4 or not is_number(parts[1], 255) then return nil end
    local kind, host, proto, port = parts[1].number, parts[2], parts[3], parts[4]
    local fits = is_proto(proto) and is_number(port, 65535)
    if kind == 103 then
        fits = fits and is_bytes(host, 16)
    elseif kind == 104 then
        fits = fits and is_bytes(host, 4)
    elseif kind == 105 then
        fits = fits and is_text(host)
    else
        fits = kind == 106 and is_text(host) and (is_proto(proto) or is_null(proto))
            and (is_number(port, 65535) or is_null(port))
    end
    return fits and { item = item, kind = kind, type = parts[1], host = host, proto = proto, port = port } or nil
end

--- The locators from one part up to another, at least one.
local function locators_of(parts, first, last)
    local out = {}
    for place = first, last do
        out[#out + 1] = locator_of(parts[place])
        if #out ~= place - first + 1 then return nil end
    end
    return #out > 0 and out or nil
end

--- A response's locators or divert, and perhaps its objective, from its fifth part on.
local function read_answer(message, parts)
    local last = #parts
    message.objective = last >= 6 and objective_of(parts[last]) or nil
    if message.objective then
        last = last - 1
    end
    if last == 5 and is_option(parts[5], 100) then
        message.divert = parts[5]
        message.locators = locators_of(parts[5].parts, 2, #parts[5].parts)
    else
        message.locators = locators_of(parts, 5, last)
    end
    return message.locators and message
end

--- A flood's objectives, each with a locator or without one, from its fifth part on.
local function read_flood(message, parts)
    message.flooded = {}
    for place = 5, #parts do
        local pair = parts[place]
        local objective = pair.major == 4 and #pair.parts == 2 and objective_of(pair.parts[1])
        local locator = objective and locator_of(pair.parts[2])
        local none = objective and pair.parts[2].major == 4 and #pair.parts[2].parts == 0
        if not objective or not (locator or none) then return nil end
        message.flooded[place - 4] = { item = pair, objective = objective, locator = locator or nil }
    end
    return #parts >= 5 and message or nil
end

local function read_verdict(message, parts)
    local verdict = #parts == 3 and parts[3]
    if verdict and is_option(verdict, 101) and #verdict.parts == 1 then
        message.accept = verdict
        return message
    end
    local reason = verdict and verdict.parts and verdict.parts[2]
    if verdict and is_option(verdict, 102) and #verdict.parts <= 2 and (not reason or is_text(reason)) then
        message.decline, message.reason = verdict, reason
        return message
    end
    return nil
end

--- Reads what follows the session of each type of message.
local READERS = {
    [1] = function(message, parts)
        message.objective = #parts == 4 and objective_of(parts[4])
        return message.objective and message
    end,
    [2] = read_answer,
    [6] = read_verdict,
    [7] = function(message, parts)
        message.waiting_time = parts[3]
        return #parts == 3 and is_number(parts[3], 4294967295) and message
    end,
    [9] = read_flood,
    [99] = function(message, parts)
        message.detail = parts[3]
        return #parts <= 3 and (not parts[3] or parts[3].depth <= DEEPEST_VALUE) and message
    end,
}
for _, kind in ipairs({ 3, 4, 5, 8 }) do
    READERS[kind] = function(message, parts)
        message.objective = #parts == 3 and objective_of(parts[3])
        return message.objective and message
    end
end

local HAS_INITIATOR = { [1] = true, [2] = true, [9] = true }
local HAS_TTL = { [2] = true, [9] = true }

--- The message of an item, or nothing where it is none.
local function message_of(item)
    local parts = item.major == 4 and item.parts or {}
    if not is_number(parts[1], 255) or not TYPES[parts[1].number] then return nil end
    local message = { item = item, kind = parts[1].number, type = parts[1], session = parts[2] }
    if message.kind == 0 then
        return #parts == 1 and message or nil
    end
    if not is_number(parts[2], 4294967295) then return nil end
    if HAS_INITIATOR[message.kind] then
        message.initiator = parts[3]
        if not (is_bytes(parts[3], 4) or is_bytes(parts[3], 16)) then return nil end
    end
    if HAS_TTL[message.kind] then
        message.ttl = parts[4]
        if not is_number(parts[4], 4294967295) then return nil end
    end
    return READERS[message.kind](message, parts) or nil
end

-- Messages in words.

local function value_word(item)
    return item and "x" .. shortest(item) or "-"
end

local function objective_words(objective)
    return ("obj %s %s %s %s"):format(text_word(objective.name.content), number_word(objective.flags),
        number_word(objective.loops), value_word(objective.value))
end

local LOCATOR_WORDS = { [103] = "v6", [104] = "v4", [105] = "fqdn", [106] = "uri" }

local function locator_words(locator)
    local host = locator.kind <= 104 and hex_of(locator.host.content) or text_word(locator.host.content)
    local proto = is_null(locator.proto) and "-" or PROTOS[locator.proto.number]
    local port = is_null(locator.port) and "-" or number_word(locator.port)
    return ("%s %s %s %s"):format(LOCATOR_WORDS[locator.kind], host, proto, port)
end

local function locators_words(locators)
    local out = {}
    for place, locator in ipairs(locators) do
        out[place] = locator_words(locator)
    end
    return table.concat(out, " ")
end

--- The line of a message.
local function line_of(message)
    local out = { WORDS[message.kind] }
    local function add(words)
        out[#out + 1] = words
    end
    if message.session then add(number_word(message.session)) end
    if message.initiator then add(hex_of(message.initiator.content)) end
    if message.ttl then add(number_word(message.ttl)) end
    if message.locators then add((message.divert and "divert " or "locators ") .. locators_words(message.locators)) end
    if message.objective then add(objective_words(message.objective)) end
    if message.accept then add("accept") end
    if message.decline then add("decline") end
    if message.reason then add(text_word(message.reason.content)) end
    if message.waiting_time then add(number_word(message.waiting_time)) end
    if message.kind == 99 then add(value_word(message.detail)) end
    for _, part in ipairs(message.flooded or {}) do
        add(objective_words(part.objective))
        add(part.locator and locator_words(part.locator) or "none")
    end
    return table.concat(out, " ")
end

-- The tree. `span` gives the range of an item's bytes, and `inside` that of a string's content; the content of one that has
-- chunks gets bytes of its own.

local function add_number(tree, span, each, item)
    return tree:add(each, span(item), item.number)
end

local function add_text(tree, span, each, item)
    return tree:add(each, span(item), item.content)
end

local function add_value(tree, span, each, item)
    local branch = tree:add(each, span(item), value_word(item))
    branch:add(field.diagnostic, span(item), diagnostic(item))
end

local function inside(span, item)
    if item.from then
        return span({ at = item.from, stop = item.stop })
    end
    return ByteArray.new(hex_of(item.content)):tvb("Content of chunks"):range()
end

local function add_address(tree, range, as_ipv4, as_ipv6, item)
    tree:add(#item.content == 4 and as_ipv4 or as_ipv6, range)
end

local function add_objective(tree, span, objective)
    local branch = tree:add(field.objective, span(objective.item), objective_words(objective))
    add_text(branch, span, field.name, objective.name)
    local flags = add_number(branch, span, field.flags, objective.flags)
    for _, each in ipairs({ field.flag_disc, field.flag_neg, field.flag_synch, field.flag_dry }) do
        flags:add(each, span(objective.flags), objective.flags.number)
    end
    add_number(branch, span, field.loop_count, objective.loops)
    if objective.value then
        add_value(branch, span, field.value, objective.value)
    end
end

local function add_locator(tree, span, locator)
    local branch = tree:add(field.locator, span(locator.item), locator_words(locator))
    add_number(branch, span, field.locator_type, locator.type)
    if locator.kind <= 104 then
        add_address(branch, inside(span, locator.host), field.locator_ipv4, field.locator_ipv6, locator.host)
    else
        add_text(branch, span, locator.kind == 105 and field.locator_fqdn or field.locator_uri, locator.host)
    end
    if not is_null(locator.proto) then add_number(branch, span, field.locator_proto, locator.proto) end
    if not is_null(locator.port) then add_number(branch, span, field.locator_port, locator.port) end
end

local function add_verdict(tree, span, message)
    if message.accept then
        tree:add(field.accept, span(message.accept), "accept")
    end
    if message.decline then
        local words = message.reason and "decline " .. text_word(message.reason.content) or "decline"
        local branch = tree:add(field.decline, span(message.decline), words)
        if message.reason then
            add_text(branch, span, field.reason, message.reason)
        end
    end
end

local function add_answer(tree, span, message)
    local branch = tree
    if message.divert then
        branch = tree:add(field.divert, span(message.divert), "divert " .. locators_words(message.locators))
    end
    for _, locator in ipairs(message.locators or {}) do
        add_locator(branch, span, locator)
    end
end

local function add_message(tree, span, message, line)
    tree:add(field.line, span(message.item), line)
    add_number(tree, span, field.type, message.type)
    if message.session then add_number(tree, span, field.session, message.session) end
    if message.initiator then
        local range = inside(span, message.initiator)
        local branch = tree:add(field.initiator, range)
        add_address(branch, range, field.initiator_ipv4, field.initiator_ipv6, message.initiator)
    end
    if message.ttl then add_number(tree, span, field.ttl, message.ttl) end
    if message.waiting_time then add_number(tree, span, field.waiting_time, message.waiting_time) end
    add_answer(tree, span, message)
    add_verdict(tree, span, message)
    if message.objective then add_objective(tree, span, message.objective) end
    if message.detail then add_value(tree, span, field.detail, message.detail) end
    for _, part in ipairs(message.flooded or {}) do
        add_objective(tree, span, part.objective)
        if part.locator then add_locator(tree, span, part.locator) end
    end
end

-- Datagrams and streams.

local LONGEST_INFO = 512
local TCP = 2

local function cut_off(words)
    return #words > LONGEST_INFO and words:sub(1, LONGEST_INFO) .. ".." or words
end

--- Puts these words into the info column, after those of an earlier message of this packet.
local function tell(pinfo, told, words)
    if told.count == 0 then
        pinfo.cols.info:set(cut_off(words))
    else
        pinfo.cols.info:append(" | " .. cut_off(words))
    end
    told.count = told.count + 1
end

--- Shows a fault. `range` has the bytes from the item's first one on.
local function add_fault(tree, pinfo, told, range, name, at)
    local words = ("%s at %d"):format(name, at)
    local branch = tree:add(grasp, range, "GRASP, " .. words)
    local place = range
    if at < range:len() and name ~= "not a message" and name ~= "too long" then
        place = range:range(at)
    end
    branch:add(field.fault, place, words):add_proto_expert_info(FAULTS[name], words)
    branch:add(field.fault_at, place, at)
    tell(pinfo, told, words)
    return branch
end

--- Shows a whole item that is a message, or tells that it is none.
local function add_item(tree, pinfo, told, range, item)
    local message = message_of(item)
    if not message then
        local branch = add_fault(tree, pinfo, told, range, "not a message", 0)
        branch:add(field.diagnostic, range, diagnostic(item))
        return false
    end
    local line = line_of(message)
    local branch = tree:add(grasp, range, "GRASP, " .. TYPES[message.kind] .. ": " .. cut_off(line))
    local function span(part)
        return range:range(part.at, part.stop - part.at)
    end
    add_message(branch, span, message, line)
    tell(pinfo, told, line)
    return true
end

local function dissect_datagram(tvb, pinfo, tree, told)
    local item, name, at = read_item(tvb:range():raw(), grasp.prefs.limit)
    if not item then
        add_fault(tree, pinfo, told, tvb:range(), name, at)
    elseif add_item(tree, pinfo, told, tvb:range(0, item.stop), item) and item.stop < tvb:len() then
        add_fault(tree, pinfo, told, tvb:range(), "trailing", item.stop)
    end
    return tvb:len()
end

-- For each direction of a stream the number of the first packet with a fault: nothing after it can be read.
local faults = {}
local stream_field = Field.new("tcp.stream")

local function direction_of(pinfo)
    local stream = stream_field()
    return ("%s %s %d"):format(stream and tostring(stream.value) or "", tostring(pinfo.src), pinfo.src_port)
end

--- Shows the messages of a piece, and asks for more bytes where the last one isn't whole.
local function dissect_stream(tvb, pinfo, tree, told)
    local direction, offset = direction_of(pinfo), 0
    if faults[direction] and pinfo.number > faults[direction] then
        local branch = tree:add(grasp, tvb:range(), "GRASP, after a fault")
        branch:add_proto_expert_info(FAULTS["after a fault"], ("after a fault in frame %d"):format(faults[direction]))
        branch:add(field.fault_frame, tvb:range(), faults[direction])
        tell(pinfo, told, "after a fault")
        return tvb:len()
    end
    while offset < tvb:len() do
        local rest = tvb:range(offset)
        local item, name, at = read_item(rest:raw(), grasp.prefs.limit)
        if not item and name == "truncated" and pinfo.can_desegment > 0 then
            pinfo.desegment_offset = offset
            pinfo.desegment_len = DESEGMENT_ONE_MORE_SEGMENT
            return tvb:len()
        end
        if not item then
            add_fault(tree, pinfo, told, rest, name, at)
        end
        if not item or not add_item(tree, pinfo, told, tvb:range(offset, item.stop), item) then
            faults[direction] = faults[direction] or pinfo.number
            return tvb:len()
        end
        offset = offset + item.stop
    end
    return tvb:len()
end

function grasp.dissector(tvb, pinfo, tree)
    if tvb:len() == 0 then return 0 end
    local told = { count = 0 }
    pinfo.cols.protocol = "GRASP"
    if pinfo.port_type == TCP then
        return dissect_stream(tvb, pinfo, tree, told)
    end
    return dissect_datagram(tvb, pinfo, tree, told)
end

function grasp.init()
    faults = {}
end

-- Ports. They are those of the preferences; other ones can be chosen by Decode As.

local tables = { udp = DissectorTable.get("udp.port"), tcp = DissectorTable.get("tcp.port") }
local ports = { udp = "", tcp = "" }

local function set_ports(kind, wanted)
    if ports[kind] == wanted then
        return
    end
    if ports[kind] ~= "" then tables[kind]:remove(ports[kind], grasp) end
    if wanted ~= "" then tables[kind]:add(wanted, grasp) end
    ports[kind] = wanted
end

local function set_all_ports()
    set_ports("udp", grasp.prefs.udp_ports)
    set_ports("tcp", grasp.prefs.tcp_ports)
end

grasp.prefs_changed = set_all_ports
set_all_ports()
tables.udp:add_for_decode_as(grasp)
tables.tcp:add_for_decode_as(grasp)
