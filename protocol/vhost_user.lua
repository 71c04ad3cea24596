-- SPDX-License-Identifier: Apache-2.0
-- Wireshark's dissector for the packets that 'covretin-tap --pcapng=FILE' writes. docs/TAP.md says how Wireshark finds it. A packet is an
-- event of a session: a header of the tap (rust/src/tap/exported.rs has its layout), and behind it the message's bytes. The packet names
-- this dissector, so that no port, heuristic or setting is wanted. What it shows of a message, as its Info, is the tap's own line.
-- scripts/check.py --write requests writes the tables of requests.

-- The sizes of a message's header, and of the greatest body.
local HEADER, MOST = 12, 4096
-- The layout of the tap's header that is read here, and how many bytes stand before its lists.
local LAYOUT, FIXED = 1, 28
-- The flags of a message's header, by their bits; and its version.
local REPLY, NEED_REPLY, VERSION = 2, 3, 1
-- The kinds of events, by their numbers in the tap's header.
local MESSAGE, BYTES, CONNECTED, NOT_CONNECTED, ENDED, WAITS, LEFT = 0, 1, 2, 3, 4, 5, 6
-- The ways of events: bit 0 says that the bytes are the backend's, bit 1 that they pass on the backend channel.
local WAYS = { [0] = "F>B", "B>F", "rev:F>B", "rev:B>F" }
local NO_WAY = 255

-- The requests of a frontend by their codes: the name, whether each has a reply of its own, the fields of the request, and those of its
-- reply. A field has its name, its bytes and its form. What stands behind the fields is `tail`: bytes; or records by their name, of the
-- fields `of`. A request whose body is `empty` has none.
local REQUESTS = {
    -- generated from protocol/requests.toml: requests
    [1] = {
        name = "GET_FEATURES", replies = true,
        body = { tail = "bytes", empty = true },
        reply = { { "features", 8, "Features" } },
    },
    [2] = {
        name = "SET_FEATURES", replies = false,
        body = { { "features", 8, "Features" } },
        reply = { { "result", 8, "Result" } },
    },
    [3] = {
        name = "SET_OWNER", replies = false,
        body = { tail = "bytes", empty = true },
        reply = { { "result", 8, "Result" } },
    },
    [4] = {
        name = "RESET_OWNER", replies = false,
        body = { tail = "bytes", empty = true },
        reply = { { "result", 8, "Result" } },
    },
    [5] = {
        name = "SET_MEM_TABLE", replies = false,
        body = { { "regions", 4, "Number" }, { "", 4, "Padding" }, tail = "memory", of = { { "guest", 8, "Address" }, { "size", 8, "Address" }, { "user", 8, "Address" }, { "offset", 8, "Address" } } },
        reply = { { "result", 8, "Result" } },
    },
    [6] = {
        name = "SET_LOG_BASE", replies = true,
        body = { { "size", 8, "Address" }, { "offset", 8, "Address" } },
        reply = { { "size", 8, "Address" }, { "offset", 8, "Address" } },
    },
    [7] = {
        name = "SET_LOG_FD", replies = false,
        body = { tail = "bytes", empty = true },
        reply = { { "result", 8, "Result" } },
    },
    [8] = {
        name = "SET_VRING_NUM", replies = false,
        body = { { "ring", 4, "Number" }, { "size", 4, "Number" } },
        reply = { { "result", 8, "Result" } },
    },
    [9] = {
        name = "SET_VRING_ADDR", replies = false,
        body = { { "ring", 4, "Number" }, { "flags", 4, "VringFlags" }, { "descriptors", 8, "Address" }, { "used", 8, "Address" }, { "available", 8, "Address" }, { "log", 8, "Address" } },
        reply = { { "result", 8, "Result" } },
    },
    [10] = {
        name = "SET_VRING_BASE", replies = false,
        body = { { "ring", 4, "Number" }, { "base", 4, "Number" } },
        reply = { { "result", 8, "Result" } },
    },
    [11] = {
        name = "GET_VRING_BASE", replies = true,
        body = { { "ring", 4, "Number" }, { "", 4, "Padding" } },
        reply = { { "ring", 4, "Number" }, { "base", 4, "Number" } },
    },
    [12] = {
        name = "SET_VRING_KICK", replies = false,
        body = { { "ring", 1, "Number" }, { "polled", 7, "Polled" } },
        reply = { { "result", 8, "Result" } },
    },
    [13] = {
        name = "SET_VRING_CALL", replies = false,
        body = { { "ring", 1, "Number" }, { "polled", 7, "Polled" } },
        reply = { { "result", 8, "Result" } },
    },
    [14] = {
        name = "SET_VRING_ERR", replies = false,
        body = { { "ring", 1, "Number" }, { "polled", 7, "Polled" } },
        reply = { { "result", 8, "Result" } },
    },
    [15] = {
        name = "GET_PROTOCOL_FEATURES", replies = true,
        body = { tail = "bytes", empty = true },
        reply = { { "features", 8, "ProtocolFeatures" } },
    },
    [16] = {
        name = "SET_PROTOCOL_FEATURES", replies = false,
        body = { { "features", 8, "ProtocolFeatures" } },
        reply = { { "result", 8, "Result" } },
    },
    [17] = {
        name = "GET_QUEUE_NUM", replies = true,
        body = { tail = "bytes", empty = true },
        reply = { { "rings", 8, "Number" } },
    },
    [18] = {
        name = "SET_VRING_ENABLE", replies = false,
        body = { { "ring", 4, "Number" }, { "enable", 4, "Switch" } },
        reply = { { "result", 8, "Result" } },
    },
    [19] = {
        name = "SEND_RARP", replies = false,
        body = { tail = "bytes" },
        reply = { { "result", 8, "Result" } },
    },
    [20] = {
        name = "NET_SET_MTU", replies = false,
        body = { { "mtu", 8, "Number" } },
        reply = { { "result", 8, "Result" } },
    },
    [21] = {
        name = "SET_BACKEND_REQ_FD", replies = false,
        body = { tail = "bytes", empty = true },
        reply = { { "result", 8, "Result" } },
    },
    [22] = {
        name = "IOTLB_MSG", replies = false,
        body = { tail = "bytes" },
        reply = { { "result", 8, "Result" } },
    },
    [23] = {
        name = "SET_VRING_ENDIAN", replies = false,
        body = { { "ring", 4, "Number" }, { "big", 4, "Switch" } },
        reply = { { "result", 8, "Result" } },
    },
    [24] = {
        name = "GET_CONFIG", replies = true,
        body = { { "offset", 4, "Number" }, { "size", 4, "Number" }, { "flags", 4, "ConfigFlags" }, tail = "bytes" },
        reply = { { "offset", 4, "Number" }, { "size", 4, "Number" }, { "flags", 4, "ConfigFlags" }, tail = "bytes" },
    },
    [25] = {
        name = "SET_CONFIG", replies = false,
        body = { { "offset", 4, "Number" }, { "size", 4, "Number" }, { "flags", 4, "ConfigFlags" }, tail = "bytes" },
        reply = { { "result", 8, "Result" } },
    },
    [26] = {
        name = "CREATE_CRYPTO_SESSION", replies = true,
        body = { tail = "bytes" },
        reply = { { "result", 8, "Result" } },
    },
    [27] = {
        name = "CLOSE_CRYPTO_SESSION", replies = false,
        body = { tail = "bytes" },
        reply = { { "result", 8, "Result" } },
    },
    [28] = {
        name = "POSTCOPY_ADVISE", replies = true,
        body = { tail = "bytes", empty = true },
        reply = { { "result", 8, "Result" } },
    },
    [29] = {
        name = "POSTCOPY_LISTEN", replies = false,
        body = { tail = "bytes", empty = true },
        reply = { { "result", 8, "Result" } },
    },
    [30] = {
        name = "POSTCOPY_END", replies = false,
        body = { tail = "bytes", empty = true },
        reply = { { "result", 8, "Result" } },
    },
    [31] = {
        name = "GET_INFLIGHT_FD", replies = true,
        body = { { "size", 8, "Address" }, { "offset", 8, "Address" }, { "rings", 2, "Number" }, { "ring_size", 2, "Number" }, { "", 4, "Padding" } },
        reply = { { "size", 8, "Address" }, { "offset", 8, "Address" }, { "rings", 2, "Number" }, { "ring_size", 2, "Number" }, { "", 4, "Padding" } },
    },
    [32] = {
        name = "SET_INFLIGHT_FD", replies = false,
        body = { { "size", 8, "Address" }, { "offset", 8, "Address" }, { "rings", 2, "Number" }, { "ring_size", 2, "Number" }, { "", 4, "Padding" } },
        reply = { { "result", 8, "Result" } },
    },
    [33] = {
        name = "GPU_SET_SOCKET", replies = false,
        body = { tail = "bytes", empty = true },
        reply = { { "result", 8, "Result" } },
    },
    [34] = {
        name = "RESET_DEVICE", replies = false,
        body = { tail = "bytes", empty = true },
        reply = { { "result", 8, "Result" } },
    },
    [35] = {
        name = "VRING_KICK", replies = false,
        body = { { "ring", 4, "Number" }, { "", 4, "Padding" } },
        reply = { { "result", 8, "Result" } },
    },
    [36] = {
        name = "GET_MAX_MEM_SLOTS", replies = true,
        body = { tail = "bytes", empty = true },
        reply = { { "regions", 8, "Number" } },
    },
    [37] = {
        name = "ADD_MEM_REG", replies = false,
        body = { { "", 8, "Padding" }, tail = "memory", of = { { "guest", 8, "Address" }, { "size", 8, "Address" }, { "user", 8, "Address" }, { "offset", 8, "Address" } } },
        reply = { { "result", 8, "Result" } },
    },
    [38] = {
        name = "REM_MEM_REG", replies = false,
        body = { { "", 8, "Padding" }, tail = "memory", of = { { "guest", 8, "Address" }, { "size", 8, "Address" }, { "user", 8, "Address" }, { "offset", 8, "Address" } } },
        reply = { { "result", 8, "Result" } },
    },
    [39] = {
        name = "SET_STATUS", replies = false,
        body = { { "status", 8, "Address" } },
        reply = { { "result", 8, "Result" } },
    },
    [40] = {
        name = "GET_STATUS", replies = true,
        body = { tail = "bytes", empty = true },
        reply = { { "status", 8, "Address" } },
    },
    [41] = {
        name = "GET_SHARED_OBJECT", replies = true,
        body = { tail = "bytes" },
        reply = { { "result", 8, "Result" } },
    },
    [42] = {
        name = "SET_DEVICE_STATE_FD", replies = true,
        body = { { "direction", 4, "Direction" }, { "phase", 4, "Number" } },
        reply = { { "state", 8, "Address" } },
    },
    [43] = {
        name = "CHECK_DEVICE_STATE", replies = true,
        body = { tail = "bytes", empty = true },
        reply = { { "result", 8, "Result" } },
    },
    [44] = {
        name = "GET_SHMEM_CONFIG", replies = true,
        body = { tail = "bytes", empty = true },
        reply = { { "regions", 4, "Number" }, { "", 4, "Padding" }, tail = "sizes", of = { { "size", 8, "Address" } } },
    },
    -- end
}

-- The same of a backend, whose replies are acknowledgements.
local BACKEND_REQUESTS = {
    -- generated from protocol/requests.toml: requests of a backend
    [1] = {
        name = "IOTLB_MSG", replies = false,
        body = { tail = "bytes" },
    },
    [2] = {
        name = "CONFIG_CHANGE_MSG", replies = false,
        body = { tail = "bytes", empty = true },
    },
    [3] = {
        name = "VRING_HOST_NOTIFIER_MSG", replies = false,
        body = { { "ring", 8, "Address" }, { "size", 8, "Address" }, { "offset", 8, "Address" } },
    },
    [4] = {
        name = "VRING_CALL", replies = false,
        body = { tail = "bytes" },
    },
    [5] = {
        name = "VRING_ERR", replies = false,
        body = { tail = "bytes" },
    },
    [6] = {
        name = "SHARED_OBJECT_ADD", replies = false,
        body = { tail = "bytes" },
    },
    [7] = {
        name = "SHARED_OBJECT_REMOVE", replies = false,
        body = { tail = "bytes" },
    },
    [8] = {
        name = "SHARED_OBJECT_LOOKUP", replies = false,
        body = { tail = "bytes" },
    },
    [9] = {
        name = "SHMEM_MAP", replies = false,
        body = { { "region", 1, "Number" }, { "", 7, "Padding" }, { "fd_offset", 8, "Address" }, { "offset", 8, "Address" }, { "size", 8, "Address" }, { "flags", 8, "Address" } },
    },
    [10] = {
        name = "SHMEM_UNMAP", replies = false,
        body = { { "region", 1, "Number" }, { "", 7, "Padding" }, { "fd_offset", 8, "Address" }, { "offset", 8, "Address" }, { "size", 8, "Address" }, { "flags", 8, "Address" } },
    },
    -- end
}

-- The bits of features and flags by their names, which scripts/check.py requests compares with those of the package in Rust.
local BITS = {
    Features = {
        [24] = "NOTIFY_ON_EMPTY", [26] = "LOG_ALL", [27] = "ANY_LAYOUT", [28] = "RING_INDIRECT_DESC", [29] = "RING_EVENT_IDX",
        [30] = "PROTOCOL_FEATURES", [32] = "VERSION_1", [33] = "ACCESS_PLATFORM", [34] = "RING_PACKED", [35] = "IN_ORDER",
        [36] = "ORDER_PLATFORM", [37] = "SR_IOV", [38] = "NOTIFICATION_DATA", [39] = "NOTIF_CONFIG_DATA", [40] = "RING_RESET",
        [41] = "ADMIN_VQ",
    },
    ProtocolFeatures = {
        [0] = "MQ", [1] = "LOG_SHMFD", [2] = "RARP", [3] = "REPLY_ACK", [4] = "MTU", [5] = "BACKEND_REQ", [6] = "CROSS_ENDIAN",
        [7] = "CRYPTO_SESSION", [8] = "PAGEFAULT", [9] = "CONFIG", [10] = "BACKEND_SEND_FD", [11] = "HOST_NOTIFIER",
        [12] = "INFLIGHT_SHMFD", [13] = "RESET_DEVICE", [14] = "INBAND_NOTIFICATIONS", [15] = "CONFIGURE_MEM_SLOTS", [16] = "STATUS",
        [17] = "XEN_MMAP", [18] = "SHARED_OBJECT", [19] = "DEVICE_STATE", [20] = "GET_VRING_BASE_INFLIGHT", [21] = "GPA_ADDRESSES",
        [22] = "SHMEM",
    },
    VringFlags = { [0] = "VHOST_VRING_F_LOG" },
    ConfigFlags = { [0] = "WRITABLE", [1] = "LIVE_MIGRATION" },
}

-- Layouts of replies that are shorter than their request's own.
local RESULT = { { "result", 8, "Result" } }
local MAPPED = { { "mapped", 8, "Result" } }
local SIZE = { { "size", 8, "Address" } }
local NO_BODY = {}
local UNKNOWN = { tail = "bytes" }
-- Requests whose reply repeats them while postcopy listens; and those whose reply may be a result alone.
local REPEATED = { SET_MEM_TABLE = true, ADD_MEM_REG = true, REM_MEM_REG = true }
local FAILING = { GET_CONFIG = true, GET_INFLIGHT_FD = true }

local protocol = Proto("vhost_user", "vhost-user")

-- -- Numbers --

-- The number in so many bytes from a place on, as its lower and its higher 32 bits. Bytes that are missing are 0.
local function number_at(bytes, at, width)
    local low, high = 0, 0
    for place = math.min(width, #bytes - at) - 1, 0, -1 do
        local byte = bytes:byte(at + place + 1)
        if place < 4 then low = low * 256 + byte else high = high * 256 + byte end
    end
    return low, high
end

local function decimal(low, high)
    return high == 0 and string.format("%d", low) or tostring(UInt64.new(low, high))
end

local function hexadecimal(low, high)
    return high == 0 and string.format("0x%x", low) or string.format("0x%x%08x", high, low)
end

local function has_bit(low, high, bit)
    local part = bit < 32 and low or high
    return math.floor(part / 2 ^ (bit % 32)) % 2 == 1
end

local function digits(bytes)
    return (bytes:gsub(".", function(it) return string.format("%02x", it:byte()) end))
end

-- The names of the bits that are set, and the numbers of those that have none, unless these are left out.
local function bit_names(form, low, high)
    local names, has_numbers = {}, form == "Features" or form == "ProtocolFeatures"
    for bit = 0, 63 do
        local name = BITS[form][bit] or has_numbers and "bit" .. bit
        if name and has_bit(low, high, bit) then table.insert(names, name) end
    end
    return names
end

-- The word of a small number, or the number.
local function word(words)
    return function(low, high) return high == 0 and words[low + 1] or decimal(low, high) end
end

local function bits(form)
    return function(low, high)
        return hexadecimal(low, high) .. "(" .. table.concat(bit_names(form, low, high), "|") .. ")"
    end
end

-- The same of flags, which are shown where there are some.
local function flags(form)
    return function(low, high) return (low ~= 0 or high ~= 0) and bits(form)(low, high) or nil end
end

-- How the numbers of each form are shown; nil where they are not.
local FORMS = {
    Number = decimal,
    Address = hexadecimal,
    Switch = word({ "off", "on" }),
    Direction = word({ "save", "load" }),
    Result = function(low, high) return low == 0 and high == 0 and "done" or "failed(" .. decimal(low, high) .. ")" end,
    Polled = function(low) return low % 2 == 1 and "on" or nil end,
    Features = bits("Features"),
    ProtocolFeatures = bits("ProtocolFeatures"),
    VringFlags = flags("VringFlags"),
    ConfigFlags = flags("ConfigFlags"),
    Padding = function() return nil end,
}

-- -- What Wireshark filters by --

local names, backend_names = {}, {}
for code, it in pairs(REQUESTS) do names[code] = it.name end
for code, it in pairs(BACKEND_REQUESTS) do backend_names[code] = it.name end
local way_names = { [NO_WAY] = "none" }
for number, name in pairs(WAYS) do way_names[number] = name end
local kind_names = { [0] = "message", "bytes that are no message", "connected", "not connected", "end", "waiting", "no more was seen" }

local own = {
    session = ProtoField.uint64("vhost_user.session", "Session"),
    kind = ProtoField.uint8("vhost_user.kind", "Event", base.DEC, kind_names),
    way = ProtoField.uint8("vhost_user.way", "Way", base.DEC, way_names),
    way_name = ProtoField.string("vhost_user.way_name", "Way's name"),
    time = ProtoField.relative_time("vhost_user.since_start", "Time since the tap's start"),
    short = ProtoField.bool("vhost_user.short", "Cut short"),
    fds = ProtoField.uint32("vhost_user.fds", "Descriptors"),
    fd = ProtoField.string("vhost_user.fd", "Descriptor"),
    fds_at = ProtoField.uint32("vhost_user.fds_at", "Descriptors came with byte"),
    body_fds = ProtoField.uint32("vhost_user.body_fds", "Descriptors that did not come with the first byte"),
    cut = ProtoField.uint32("vhost_user.received", "Bytes of a receive"),
    text = ProtoField.string("vhost_user.text", "Said"),
    line = ProtoField.string("vhost_user.line", "Line of the tap"),
    request = ProtoField.uint32("vhost_user.request", "Request", base.DEC, names),
    backend_request = ProtoField.uint32("vhost_user.backend_request", "Request of the backend", base.DEC, backend_names),
    header_flags = ProtoField.uint32("vhost_user.header_flags", "Flags", base.HEX),
    version = ProtoField.uint32("vhost_user.header_flags.version", "Version"),
    reply = ProtoField.bool("vhost_user.header_flags.reply", "REPLY"),
    need_reply = ProtoField.bool("vhost_user.header_flags.need_reply", "NEED_REPLY"),
    body_size = ProtoField.uint32("vhost_user.body_size", "Size of the body"),
    record = ProtoField.bytes("vhost_user.record", "Record"),
    bytes = ProtoField.bytes("vhost_user.bytes", "Bytes"),
    response_in = ProtoField.framenum("vhost_user.response_in", "Reply in", base.NONE, frametype.RESPONSE),
    response_to = ProtoField.framenum("vhost_user.response_to", "Reply to", base.NONE, frametype.REQUEST),
    response_time = ProtoField.relative_time("vhost_user.time", "Time from request to reply"),
}
local experts = {
    size = ProtoExpert.new("vhost_user.malformed", "The size is wrong", expert.group.MALFORMED, expert.severity.ERROR),
    short = ProtoExpert.new("vhost_user.cut_short", "It was cut short", expert.group.MALFORMED, expert.severity.ERROR),
    raw = ProtoExpert.new("vhost_user.no_message", "These bytes are no message", expert.group.MALFORMED, expert.severity.ERROR),
    layout = ProtoExpert.new("vhost_user.layout", "Another version wrote it", expert.group.UNDECODED, expert.severity.WARN),
    request = ProtoExpert.new("vhost_user.unknown", "No request has this code", expert.group.UNDECODED, expert.severity.WARN),
}

-- The fields of bodies by their names, and the bits of each by theirs.
local shown, shown_bits = {}, {}

-- Bits stand below the field that has them. Fields of several forms share a name, where their bits do not.
local function add_bits(form)
    if not BITS[form] or shown_bits[form] then return end
    shown_bits[form] = {}
    for bit, name in pairs(BITS[form]) do
        local field = ProtoField.bool("vhost_user." .. form:lower() .. "." .. name:lower(), name)
        shown_bits[form][bit] = field
        table.insert(own, field)
    end
end

-- A field is hexadecimal where a request has it as an address or as bits.
local function add_field(name, form)
    local is_hexadecimal = form == "Address" or BITS[form] ~= nil
    shown[name] = shown[name] or is_hexadecimal
    add_bits(form)
end

local function add_layout(layout)
    for _, field in ipairs(layout) do
        if field[1] ~= "" then add_field(field[1], field[3]) end
    end
    if layout.of then add_layout(layout.of) end
end

local function add_fields()
    for _, it in pairs(REQUESTS) do
        add_layout(it.body)
        add_layout(it.reply)
    end
    for _, it in pairs(BACKEND_REQUESTS) do add_layout(it.body) end
    for _, layout in ipairs({ RESULT, MAPPED, SIZE, { { "region", 8, "Number" } } }) do add_layout(layout) end
    for name, is_hexadecimal in pairs(shown) do
        shown[name] = ProtoField.uint64("vhost_user." .. name, name, is_hexadecimal and base.HEX or base.DEC)
        table.insert(own, shown[name])
    end
    protocol.fields = own
    protocol.experts = experts
end
add_fields()

-- -- The tap's header --

-- Reads numbers and texts one behind another.
local function reader(bytes, at)
    local it = {}
    function it.number(width)
        local low, high = number_at(bytes, at, width)
        at = at + width
        return low, high
    end
    function it.text()
        local length = it.number(4)
        at = at + length
        return bytes:sub(at - length + 1, at)
    end
    function it.list(read)
        local list, count = {}, it.number(4)
        -- (each takes 4 bytes at least)
        for place = 1, math.min(count, #bytes / 4) do list[place] = read(4) end
        return list
    end
    return it
end

-- The event that a packet is. Its ticks are ten thousandths of a second.
local function event_of(bytes)
    local read = reader(bytes, 0)
    local event = { layout = read.number(1), kind = read.number(1), way = read.number(1), is_short = read.number(1) == 1, length = read.number(4) }
    event.session = UInt64.new(read.number(8))
    local low, high = read.number(8)
    event.ticks = low + high * 2 ^ 32
    event.body_fds = read.number(4)
    event.fds = read.list(read.text)
    event.fds_at = read.list(read.number)
    event.cuts = read.list(read.number)
    event.text = read.list(read.text)[1]
    event.bytes = bytes:sub(event.length + 1)
    event.is_of_backend = event.way % 2 == 1
    event.is_on_channel = event.way == 2 or event.way == 3
    return event
end

-- What a descriptor is, in short. A control character of its name is shown as '?', also one of two bytes.
local function fd_name(fd)
    local name = fd:match("^anon_inode:%[(.*)%]$") or fd:match("^file:/(memfd:.*)$") or fd
    return (name:gsub("\194[\128-\159]", "?"):gsub("%c", "?"))
end

-- -- Messages --

-- The message of an event: the numbers of its header, and its body.
local function message_of(event)
    local bytes = event.bytes
    local message = { code = number_at(bytes, 0, 4), flags = number_at(bytes, 4, 4), size = number_at(bytes, 8, 4) }
    local requests = event.is_on_channel and BACKEND_REQUESTS or REQUESTS
    message.body = bytes:sub(HEADER + 1)
    message.request = requests[message.code]
    message.name = message.request and message.request.name or "request " .. message.code
    message.is_reply = event.is_of_backend ~= event.is_on_channel
    message.is_part = #bytes < HEADER
    return message
end

local function flag_names(message)
    local found = {}
    if has_bit(message.flags, 0, REPLY) then table.insert(found, "REPLY") end
    if has_bit(message.flags, 0, NEED_REPLY) then table.insert(found, "NEED_REPLY") end
    local version, reserved = message.flags % 4, message.flags - message.flags % 16
    if version ~= VERSION then table.insert(found, "version" .. version) end
    if reserved ~= 0 then table.insert(found, hexadecimal(reserved, 0)) end
    return found
end

-- The layout of a reply: one is longer while postcopy listens, or shorter where it only says whether it was done.
local function reply_layout(request, size)
    if size == 0 then return NO_BODY end
    if REPEATED[request.name] and size > 8 then return request.body end
    if FAILING[request.name] and size <= 8 then return RESULT end
    if request.name == "SET_LOG_BASE" and size == 8 then return SIZE end
    return request.reply
end

-- The layout of a message's body. While postcopy listens, 8 bytes in place of regions say that the frontend has mapped them.
local function layout_of(event, message)
    local request, size = message.request, #message.body
    if event.is_on_channel and message.is_reply then return size == 8 and RESULT or UNKNOWN end
    if not request then return UNKNOWN end
    if message.is_reply then return reply_layout(request, size) end
    if REPEATED[request.name] and size == 8 and not event.is_on_channel then return MAPPED end
    return request.body
end

-- A field's value as it is shown, at its place in the body.
local function value_at(bytes, field, at)
    local low, high = number_at(bytes, at, field[2])
    return { name = field[1], form = field[3], at = at, width = field[2], low = low, high = high, text = FORMS[field[3]](low, high) }
end

-- The values of fields from a place on, and where they end.
local function read_fields(bytes, fields, at)
    local values = {}
    for _, field in ipairs(fields) do
        local value = value_at(bytes, field, at)
        if value.text then table.insert(values, value) end
        at = at + field[2]
    end
    return values, at
end

-- The records behind a head, as many as it says, and no more than there are; and whether the size is right, which may have room for more. The
-- head of one alone says none.
local function records(bytes, fields, at)
    local found, said = {}, math.max(number_at(bytes, 0, 4), 1)
    local _, width = read_fields("", fields, 0)
    local has_whole_ones = (#bytes - at) % width == 0
    while #found < said and at + width <= #bytes do
        table.insert(found, { at = at, width = width, values = (read_fields(bytes, fields, at)) })
        at = at + width
    end
    return found, has_whole_ones and #found == said
end

-- Sizes that are not 0, each with its place, which is the number of its region; and whether there are whole ones alone.
local function sizes(bytes, fields, at)
    local found, first = {}, at
    while at + 8 <= #bytes do
        local size = value_at(bytes, fields[1], at)
        if size.low ~= 0 or size.high ~= 0 then
            local place = (at - first) / 8
            local region = { name = "region", form = "Number", at = at, width = 8, low = place, high = 0, text = decimal(place, 0) }
            table.insert(found, { at = at, width = 8, values = { region, size } })
        end
        at = at + 8
    end
    return found, at == #bytes
end

-- What a body has: values, records, and bytes, each with its place; and whether its layout fits its size.
local function read_body(bytes, layout)
    local values, at = read_fields(bytes, layout, 0)
    if at > #bytes then return { values = {}, bytes = bytes, bytes_at = 0, bytes_name = "body", fits = false } end
    local body = { values = values }
    if layout.of then
        body.records, body.fits = (layout.tail == "sizes" and sizes or records)(bytes, layout.of, at)
        return body
    end
    local rest = bytes:sub(at + 1)
    body.fits = rest == "" or layout.tail == "bytes" and not layout.empty
    if rest:find("[^\0]") or rest ~= "" and layout.tail ~= "bytes" then
        body.bytes, body.bytes_at, body.bytes_name = rest, at, "bytes"
    end
    return body
end

local function values_text(values)
    local texts = {}
    for place, value in ipairs(values) do texts[place] = value.name .. "=" .. value.text end
    return table.concat(texts, " ")
end

-- Fields, each behind a space.
local function body_text(body)
    local text = values_text(body.values)
    text = text == "" and "" or " " .. text
    if body.records then
        local texts = {}
        for place, record in ipairs(body.records) do texts[place] = "[" .. values_text(record.values) .. "]" end
        text = text .. " " .. table.concat(texts, " ")
    end
    return body.bytes and text .. " " .. body.bytes_name .. "=" .. digits(body.bytes) or text
end

local function message_text(event, message)
    local text, found = message.is_part and "a part of a header" or message.name, flag_names(message)
    if #found ~= 0 then text = text .. " [" .. table.concat(found, " ") .. "]" end
    text = text .. body_text(message.read)
    if #event.fds ~= 0 then
        local fds = {}
        for place, fd in ipairs(event.fds) do fds[place] = fd_name(fd) end
        text = text .. " fds=" .. table.concat(fds, ",")
    end
    return event.is_short and string.format("%s (cut short: %d bytes)", text, #event.bytes) or text
end

-- What the tap's line says of an event.
local function event_text(event)
    local kind, behind = event.kind, event.text and ": " .. event.text or ""
    if kind == MESSAGE then return message_text(event, event.message) end
    if kind == BYTES then return #event.bytes .. " bytes" end
    if kind == WAITS then return "waiting " .. (event.text or "") end
    return (kind_names[kind] or "an event of the kind " .. kind) .. behind
end

-- -- Replies --

-- How many requests may be remembered of a channel: most are not replied to.
local MOST_REMEMBERED = 1024
-- The requests of each channel that were not replied to; what is known of a packet that is a request or a reply, by its number.
local waiting, matched = {}, {}

function protocol.init()
    waiting, matched = {}, {}
end

local function awaits(message)
    return message.request and message.request.replies or has_bit(message.flags, 0, NEED_REPLY)
end

-- The place of the request that a reply is to: the first of its code that awaits one, or else the last of its code.
local function place_of(requests, code)
    local last
    for place, request in ipairs(requests) do
        if request.code == code then
            if request.awaits then return place end
            last = place
        end
    end
    return last
end

-- Replies come in the order of their requests, so that those before this one are not replied to any more.
local function match(number, event)
    local message, key = event.message, tostring(event.session) .. (event.is_on_channel and "channel" or "")
    waiting[key] = waiting[key] or {}
    local requests = waiting[key]
    if not message.is_reply then
        if #requests == MOST_REMEMBERED then table.remove(requests, 1) end
        table.insert(requests, { code = message.code, awaits = awaits(message), number = number, ticks = event.ticks })
        return
    end
    local place = place_of(requests, message.code)
    if not place then return end
    local request = requests[place]
    local ticks = event.ticks - request.ticks
    matched[number] = { to = request.number, ticks = ticks }
    matched[request.number] = { reply = number, ticks = ticks }
    for _ = 1, place do table.remove(requests, 1) end
end

-- -- What Wireshark shows --

-- A span of ten thousandths of a second.
local function span(ticks)
    return NSTime.new(math.floor(ticks / 10000), ticks % 10000 * 100000)
end

local function add_bit_items(item, range, value)
    local fields = shown_bits[value.form] or {}
    for bit = 0, 63 do
        if fields[bit] then item:add(fields[bit], range, has_bit(value.low, value.high, bit)) end
    end
end

local function add_values(tree, range, values)
    for _, value in ipairs(values) do
        local part = range(value.at, value.width)
        local item = tree:add(shown[value.name], part, UInt64.new(value.low, value.high))
        item:set_text(value.name .. ": " .. value.text)
        add_bit_items(item, part, value)
    end
end

local function add_body(tree, range, body)
    add_values(tree, range, body.values)
    for place, record in ipairs(body.records or {}) do
        local part = range(record.at, record.width)
        local item = tree:add(own.record, part)
        item:set_text(string.format("%d: %s", place - 1, values_text(record.values)))
        add_values(item, range, record.values)
    end
    if body.bytes then tree:add(own.bytes, range(body.bytes_at, #body.bytes)) end
end

local function add_list(tree, field, range, list)
    for _, it in ipairs(list) do tree:add(field, range, it):set_generated() end
end

-- What the tap says of an event.
local function add_event(tree, range, event)
    local item = tree:add(range, "Event of session " .. tostring(event.session))
    item:add(own.session, range(8, 8), event.session)
    item:add(own.kind, range(1, 1))
    item:add(own.way, range(2, 1))
    if WAYS[event.way] then item:add(own.way_name, range(2, 1), WAYS[event.way]) end
    item:add(own.time, range(16, 8), span(event.ticks))
    if event.text then item:add(own.text, range, event.text) end
    if event.kind ~= MESSAGE then return end
    item:add(own.short, range(3, 1), event.is_short)
    item:add(own.fds, range, #event.fds)
    add_list(item, own.fd, range, event.fds)
    add_list(item, own.fds_at, range, event.fds_at)
    item:add(own.body_fds, range(24, 4), event.body_fds)
    add_list(item, own.cut, range, event.cuts)
end

local function add_header(tree, range, event, message)
    local item = tree:add(event.is_on_channel and own.backend_request or own.request, range(0, 4), message.code)
    if not message.request then item:add_proto_expert_info(experts.request) end
    local found = table.concat(flag_names(message), " ")
    item = tree:add(own.header_flags, range(4, 4), message.flags):append_text(found == "" and "" or " (" .. found .. ")")
    item:add(own.version, range(4, 4), message.flags % 4)
    item:add(own.reply, range(4, 4), has_bit(message.flags, 0, REPLY))
    item:add(own.need_reply, range(4, 4), has_bit(message.flags, 0, NEED_REPLY))
    return tree:add(own.body_size, range(8, 4), message.size)
end

-- What is wrong with the size of a message that came whole. Of one whose header says too much, the header alone comes.
local function wrong_size(message)
    local size, said = #message.body, message.size
    if size ~= said then
        local text = said > MOST and size == 0 and "The header says a body of %d bytes, and %d is the most"
        return string.format(text or "The header says a body of %d bytes, and %d came", said, text and MOST or size)
    end
    return not message.read.fits and string.format("%s has no body of %d bytes", message.name, size) or nil
end

local function add_message(tree, range, event)
    local message = event.message
    if message.is_part then
        tree:add(own.bytes, range):add_proto_expert_info(experts.short)
        return
    end
    local item = add_header(tree, range, event, message)
    local wrong = not event.is_short and wrong_size(message)
    if event.is_short then item:add_proto_expert_info(experts.short) end
    if wrong then item:add_proto_expert_info(experts.size, wrong) end
    if #message.body ~= 0 then add_body(tree, range(HEADER), message.read) end
end

-- A reply names its request, and a request its reply.
local function add_match(tree, number)
    local match_of = matched[number]
    if not match_of then return end
    if match_of.reply then tree:add(own.response_in, match_of.reply):set_generated() end
    if match_of.to then tree:add(own.response_to, match_of.to):set_generated() end
    if match_of.to then tree:add(own.response_time, span(match_of.ticks)):set_generated() end
end

local function set_columns(pinfo, event, text)
    pinfo.cols.protocol = event.is_on_channel and "vhost-user channel" or "vhost-user"
    pinfo.cols.info = text
    if not WAYS[event.way] then return end
    pinfo.cols.src = event.is_of_backend and "backend" or "frontend"
    pinfo.cols.dst = event.is_of_backend and "frontend" or "backend"
end

-- A packet whose header has another layout is shown as bytes.
local function is_known(event, size)
    return event.layout == LAYOUT and event.length >= FIXED and event.length <= size
end

local function add_unknown(tvb, pinfo, root)
    pinfo.cols.info = "a packet of another version of covretin-tap"
    root:add(protocol, tvb()):add(own.bytes, tvb()):add_proto_expert_info(experts.layout)
end

function protocol.dissector(tvb, pinfo, root)
    local event = event_of(tvb:raw())
    if not is_known(event, tvb:len()) then return add_unknown(tvb, pinfo, root) end
    if event.kind == MESSAGE then
        event.message = message_of(event)
        event.message.read = read_body(event.message.body, layout_of(event, event.message))
        if not pinfo.visited and not event.is_short then match(pinfo.number, event) end
    end
    local text = event_text(event)
    set_columns(pinfo, event, text)
    local tree = root:add(protocol, tvb(), "vhost-user: " .. text)
    tree:add(own.line, tvb(), text):set_generated()
    add_event(tree, tvb(0, event.length), event)
    add_match(tree, pinfo.number)
    if #event.bytes == 0 then return end
    local range = tvb(event.length)
    if event.kind == MESSAGE then
        add_message(tree, range, event)
    else
        tree:add(own.bytes, range):add_proto_expert_info(experts.raw)
    end
end
