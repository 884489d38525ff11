-- A Wireshark dissector of Delta-t over UDP (docs/formats.md, "Frames, Deltagrams and packets").
--
-- It needs no port: it claims the datagrams whose octets read. Put it into the folder of personal Lua
-- plugins (Help, About, Folders), or name it: `tshark -X lua_script:deltat.lua -r FILE`. Where a port is
-- set to Delta-t ("Decode As", `tshark -d udp.port==4001,deltat`), octets that don't read are shown too,
-- with the fault that a node's `bad` line has for them.
--
-- Behind a frame the trailer of the driver's watch is shown, where there is one; at a port that is set to Delta-t
-- its pings and pongs too.
--
-- The preference `mpl` (`-o deltat.mpl:1000`) marks the packets whose life is above it: their makers
-- have other parameters.

local proto = Proto("deltat", "Delta-t")

local HEAD, PACKET_HEAD = 16, 14
local DATA, ACK, RENDEZVOUS, CLOSING = 1, 2, 3, 4
local TRAILER, BARE = 34, 4
local TRAILER_KINDS = { [1] = "frame", [2] = "ping", [3] = "pong" }
local KINDS = { [DATA] = "data", [ACK] = "ack", [RENDEZVOUS] = "rendezvous", [CLOSING] = "closing" }
local NUMBERS = 4294967296

-- The kinds of each version, the most octets of a body, and the counts of octets of data.
local VERSIONS = {
  [1] = { kinds = { [DATA] = true, [ACK] = true, [RENDEZVOUS] = true }, body = 1038, least = 1, most = 1024 },
  [2] = { kinds = { [DATA] = true, [CLOSING] = true }, body = 8206, least = 1025, most = 8192 },
}

local fields = {
  version = ProtoField.uint8("deltat.version", "Version"),
  protocol = ProtoField.uint8("deltat.protocol", "Protocol"),
  length = ProtoField.uint16("deltat.length", "Length of the body"),
  life = ProtoField.uint32("deltat.life", "Life (ms)"),
  from = ProtoField.uint32("deltat.from", "From node"),
  to = ProtoField.uint32("deltat.to", "To node"),
  body = ProtoField.bytes("deltat.body", "Body"),
  kind = ProtoField.uint8("deltat.kind", "Kind", base.DEC, KINDS),
  flags = ProtoField.uint8("deltat.flags", "Flags", base.HEX),
  run = ProtoField.bool("deltat.flags.run", "Data-run flag", 8, nil, 1),
  begins = ProtoField.bool("deltat.flags.begin", "Begins a message", 8, nil, 2),
  ends = ProtoField.bool("deltat.flags.end", "Ends a message", 8, nil, 4),
  from_port = ProtoField.uint16("deltat.from_port", "From port"),
  to_port = ProtoField.uint16("deltat.to_port", "To port"),
  number = ProtoField.uint32("deltat.number", "Number"),
  window = ProtoField.uint32("deltat.window", "Window"),
  octets = ProtoField.bytes("deltat.octets", "Octets"),
  flow = ProtoField.string("deltat.flow", "Flow"),
  letters = ProtoField.string("deltat.letters", "Marks"),
  size = ProtoField.uint32("deltat.size", "Count of octets"),
  next_number = ProtoField.uint32("deltat.next", "Number behind the octets"),
  fault = ProtoField.string("deltat.fault", "Fault"),
  again = ProtoField.bool("deltat.again", "Seen before"),
  first = ProtoField.framenum("deltat.first", "First seen in", base.NONE, frametype.DUP_ACK),
  acked_in = ProtoField.framenum("deltat.acked_in", "Acknowledged in", base.NONE, frametype.ACK),
  acks = ProtoField.framenum("deltat.acks", "Acknowledges the data of", base.NONE, frametype.ACK),
  acked_after = ProtoField.relative_time("deltat.acked_after", "Time since that data first went"),
  trailer = ProtoField.bytes("deltat.trailer", "Trailer"),
  print = ProtoField.uint32("deltat.trailer.print", "Fingerprint", base.HEX),
  opening = ProtoField.uint64("deltat.trailer.opening", "Opening", base.HEX),
  trailer_version = ProtoField.uint8("deltat.trailer.version", "Version", base.DEC, nil, 240),
  trailer_kind = ProtoField.uint8("deltat.trailer.kind", "Kind", base.DEC, TRAILER_KINDS, 15),
  round = ProtoField.uint8("deltat.trailer.round", "Round"),
  made = ProtoField.uint64("deltat.trailer.made", "Made (us)"),
  sure = ProtoField.uint64("deltat.trailer.sure", "Surely passed (us)"),
  of = ProtoField.uint16("deltat.trailer.of", "Of the opening", base.HEX),
  aged = ProtoField.uint16("deltat.trailer.aged", "Age heard (64 us)"),
  rounded = ProtoField.uint8("deltat.trailer.rounded", "Round heard"),
  wall = ProtoField.uint24("deltat.trailer.wall", "Wall clock (ms)"),
  heard = ProtoField.uint16("deltat.trailer.heard", "Datagrams heard"),
  maker = ProtoField.uint32("deltat.trailer.maker", "Node"),
}
proto.fields = {}
for _, field in pairs(fields) do table.insert(proto.fields, field) end

local experts = {
  bad = ProtoExpert.new("deltat.bad", "Octets that do not read", expert.group.MALFORMED, expert.severity.ERROR),
  again = ProtoExpert.new("deltat.seen_before", "The same octets were seen before, whatever their life",
    expert.group.SEQUENCE, expert.severity.NOTE),
  life = ProtoExpert.new("deltat.life_above_mpl", "A life above mpl: its maker has other parameters",
    expert.group.PROTOCOL, expert.severity.WARN),
  full = ProtoExpert.new("deltat.window_closed", "The receiver has no room", expert.group.SEQUENCE, expert.severity.NOTE),
  asks = ProtoExpert.new("deltat.asks", "The sender asks for the window", expert.group.SEQUENCE, expert.severity.NOTE),
  closing = ProtoExpert.new("deltat.closes", "No more data of this run follows", expert.group.SEQUENCE, expert.severity.CHAT),
}
proto.experts = {}
for _, it in pairs(experts) do table.insert(proto.experts, it) end

proto.prefs.mpl = Pref.uint("mpl (ms)", 0, "Lives above it are marked; with 0 none is")

-- The fault of the Deltagram whose first octets are in `octets`, of `count` octets in all; nil where it
-- has none. The tests are those of docs/formats.md, in their order.
local function deltagram_fault(octets, count)
  if count < HEAD then return "short " .. count end
  local version = octets(0, 1):uint()
  if not VERSIONS[version] then return "version " .. version end
  local told, there = octets(2, 2):uint(), count - HEAD
  if told ~= there or told > VERSIONS[version].body then return "length " .. told .. " " .. there end
  if octets(4, 4):uint() == 0 then return "dead" end
  return nil
end

-- The same of its packet, where the Deltagram has none.
local function packet_fault(octets, count)
  local protocol, version, length = octets(1, 1):uint(), VERSIONS[octets(0, 1):uint()], count - HEAD
  if protocol ~= 1 then return "protocol " .. protocol end
  if length < PACKET_HEAD then return "short " .. length end
  local kind, flags, window = octets(16, 1):uint(), octets(17, 1):uint(), octets(26, 4):uint()
  if not version.kinds[kind] then return "kind " .. kind end
  if flags > (kind == DATA and 7 or 0) then return "flags " .. flags end
  if window > (kind == ACK and 65536 or 0) then return "window " .. window end
  local size = length - PACKET_HEAD
  local least, most = 0, 0
  if kind == DATA then least, most = version.least, version.most end
  if size < least or size > most then return "size " .. size end
  return nil
end

-- What a capture that cut its packets off has of one is enough where both heads are there.
local function fault_of(octets)
  local count, captured = octets:reported_len(), octets:len()
  if captured < count and captured < HEAD + PACKET_HEAD then return nil, true end
  return deltagram_fault(octets, count) or packet_fault(octets, count), false
end

-- What is known of the frames so far: `first` has the frame in which octets were first seen, `sent` the
-- frame and moment of the data that ends at a number of a flow and isn't acknowledged, and `marks` what
-- is shown of a frame, so that it is the same whenever it is shown again.
local first, sent, marks = {}, {}, {}
function proto.init() first, sent, marks = {}, {}, {} end

local function mark_of(packet, octets, pinfo)
  local key = octets:raw(0, 4) .. octets:raw(8)
  local mark = { first = first[key] }
  first[key] = first[key] or pinfo.number
  local place = packet.flow .. "/" .. packet.ending
  if packet.kind == DATA and not mark.first then
    sent[place] = { frame = pinfo.number, at = pinfo.rel_ts }
  elseif packet.kind == ACK and sent[place] then
    mark.acks, mark.after = sent[place].frame, pinfo.rel_ts - sent[place].at
    marks[mark.acks].acked_in = pinfo.number
    sent[place] = nil
  end
  return mark
end

local function letters_of(flags)
  local letters = (bit.band(flags, 1) > 0 and "d" or "") .. (bit.band(flags, 2) > 0 and "b" or "")
    .. (bit.band(flags, 4) > 0 and "e" or "")
  return letters == "" and "-" or letters
end

-- The values of a packet that reads. An acknowledgement goes the other way than its flow.
local function packet_of(octets)
  local kind = octets(16, 1):uint()
  local from = octets(8, 4):uint() .. ":" .. octets(18, 2):uint()
  local to = octets(12, 4):uint() .. ":" .. octets(20, 2):uint()
  local size, number = octets:reported_len() - HEAD - PACKET_HEAD, octets(22, 4):uint()
  return {
    kind = kind, flow = kind == ACK and to .. ">" .. from or from .. ">" .. to, number = number, size = size,
    ending = (number + size) % NUMBERS, letters = letters_of(octets(17, 1):uint()),
    life = octets(4, 4):uint(), window = octets(26, 4):uint(),
  }
end

local function show_deltagram(octets, tree)
  tree:add(fields.version, octets(0, 1))
  tree:add(fields.protocol, octets(1, 1))
  tree:add(fields.length, octets(2, 2))
  local life = tree:add(fields.life, octets(4, 4))
  if proto.prefs.mpl > 0 and octets(4, 4):uint() > proto.prefs.mpl then life:add_proto_expert_info(experts.life) end
  tree:add(fields.from, octets(8, 4))
  tree:add(fields.to, octets(12, 4))
end

local function show_packet(octets, tree)
  tree:add(fields.kind, octets(16, 1))
  local flags = tree:add(fields.flags, octets(17, 1))
  flags:add(fields.run, octets(17, 1))
  flags:add(fields.begins, octets(17, 1))
  flags:add(fields.ends, octets(17, 1))
  tree:add(fields.from_port, octets(18, 2))
  tree:add(fields.to_port, octets(20, 2))
  tree:add(fields.number, octets(22, 4))
  tree:add(fields.window, octets(26, 4))
  if octets:len() > HEAD + PACKET_HEAD then tree:add(fields.octets, octets(HEAD + PACKET_HEAD)) end
end

local function show_mark(packet, mark, tree)
  if mark.first then
    local again = tree:add(fields.again, true):set_generated()
    tree:add(fields.first, mark.first):set_generated()
    if packet.kind == DATA then again:add_proto_expert_info(experts.again) end
  end
  if mark.acked_in then tree:add(fields.acked_in, mark.acked_in):set_generated() end
  if mark.acks then
    local seconds = math.floor(mark.after)
    tree:add(fields.acks, mark.acks):set_generated()
    tree:add(fields.acked_after, NSTime(seconds, math.floor((mark.after - seconds) * 1e9 + 0.5))):set_generated()
  end
end

local function show_meaning(packet, mark, tree)
  tree:add(fields.flow, packet.flow):set_generated()
  if packet.kind == DATA then
    tree:add(fields.letters, packet.letters):set_generated()
    tree:add(fields.size, packet.size):set_generated()
    tree:add(fields.next_number, packet.ending):set_generated()
  elseif packet.kind == RENDEZVOUS then
    tree:add_proto_expert_info(experts.asks)
  elseif packet.kind == CLOSING then
    tree:add_proto_expert_info(experts.closing)
  elseif packet.window == 0 then
    tree:add_proto_expert_info(experts.full)
  end
  show_mark(packet, mark, tree)
end

local function info_of(packet, mark)
  local head = KINDS[packet.kind] .. (mark.first and " again " or " ") .. packet.flow .. " " .. packet.number
  local life = " life " .. packet.life
  if packet.kind == DATA then return head .. " " .. packet.size .. " " .. packet.letters .. life end
  if packet.kind == ACK then return head .. " window " .. packet.window .. life end
  return head .. life
end

-- A quotation in an ICMP message is no packet of its own, so nothing is kept of it.
local function show_values(octets, pinfo, tree)
  local packet = packet_of(octets)
  local mark = marks[pinfo.number]
  if pinfo.in_error_pkt then
    mark = {}
  elseif not mark then
    mark = mark_of(packet, octets, pinfo)
    marks[pinfo.number] = mark
  end
  show_meaning(packet, mark, tree)
  pinfo.cols.info = info_of(packet, mark)
end

-- The places of a trailer, and how many octets each field has.
local PLACES = {
  { "print", 0, 4 }, { "opening", 4, 6 }, { "trailer_version", 10, 1 }, { "trailer_kind", 10, 1 }, { "round", 11, 1 },
  { "made", 12, 6 }, { "sure", 18, 6 }, { "of", 24, 2 }, { "aged", 26, 2 }, { "rounded", 28, 1 }, { "wall", 29, 3 },
  { "heard", 32, 2 },
}

local function show_trailer(octets, tree)
  local shown = tree:add(fields.trailer, octets)
  for _, place in ipairs(PLACES) do shown:add(fields[place[1]], octets(place[2], place[3])) end
end

-- Whether the octets end with a trailer; and whether nothing but the number of a node is before it.
local function has_trailer(octets)
  local count = octets:reported_len()
  if octets:len() < count or count < BARE + TRAILER then return false, false end
  local at = count - TRAILER
  local kind = octets(at + 10, 1):uint() - 16
  if not TRAILER_KINDS[kind] or octets(at + 4, 6):uint64() == UInt64(0) then return false, false end
  return true, count == BARE + TRAILER and kind > 1
end

-- The octets of a frame before its trailer, and those of the trailer; nil where there is none or they don't read.
local function parts_of(octets)
  if not has_trailer(octets) then return nil end
  local count = octets:reported_len() - TRAILER
  local frame = octets(0, count):tvb()
  if fault_of(frame) then return nil end
  return frame, octets(count, TRAILER)
end

local function show_bare(octets, pinfo, parent)
  local tree = parent:add(proto, octets())
  local kind = TRAILER_KINDS[octets(BARE + 10, 1):uint() - 16]
  pinfo.cols.protocol = "Delta-t"
  pinfo.cols.info = kind .. " of node " .. octets(0, BARE):uint()
  tree:add(fields.maker, octets(0, BARE))
  show_trailer(octets(BARE, TRAILER), tree)
end

local function show(octets, pinfo, parent, fault, cut)
  pinfo.cols.protocol = "Delta-t"
  local tree = parent:add(proto, octets())
  local captured = octets:len()
  if fault then
    tree:add(fields.fault, fault):set_generated()
    tree:add_proto_expert_info(experts.bad, "Octets that do not read: " .. fault)
    pinfo.cols.info = "bad " .. fault
  elseif cut then
    pinfo.cols.info = "cut off by the capture"
  end
  if captured < HEAD then return tree end
  show_deltagram(octets, tree)
  if captured < HEAD + PACKET_HEAD or octets(1, 1):uint() ~= 1 then
    if captured > HEAD then tree:add(fields.body, octets(HEAD)) end
    return tree
  end
  show_packet(octets, tree)
  if not fault then show_values(octets, pinfo, tree) end
  return tree
end

-- Shows a frame and its trailer. False: the octets aren't that.
local function show_both(octets, pinfo, parent)
  local frame, trailer = parts_of(octets)
  if not frame then return false end
  show_trailer(trailer, show(frame, pinfo, parent, nil, false))
  return true
end

function proto.dissector(octets, pinfo, tree)
  local fault, cut = fault_of(octets)
  local _, bare = has_trailer(octets)
  if bare then
    show_bare(octets, pinfo, tree)
  elseif not fault or not show_both(octets, pinfo, tree) then
    show(octets, pinfo, tree, fault, cut)
  end
  return octets:len()
end

proto:register_heuristic("udp", function(octets, pinfo, tree)
  local fault, cut = fault_of(octets)
  if cut then return false end
  if fault then return show_both(octets, pinfo, tree) end
  show(octets, pinfo, tree, nil, false)
  return true
end)
DissectorTable.get("udp.port"):add_for_decode_as(proto)
