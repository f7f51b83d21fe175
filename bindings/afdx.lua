-- Fields and expert infos of AFDX frames (ARINC 664 Part 7) for Wireshark and tshark.
--
--     tshark -X lua_script:afdx.lua -o afdx.plan:plan.toml -r run.pcapng -Y afdx.note
--     tshark -X lua_script:afdx.lua -r run.pcapng -Y 'afdx.vl == 1'
--
-- To install it, copy the file into Wireshark's folder of personal Lua plugins. A frame is AFDX if its destination MAC
-- address begins with 03 00 00 00 and its source MAC address with 02 00 00. Fields to filter by: afdx.vl, afdx.network,
-- afdx.end_system, afdx.interface, afdx.partition, afdx.sub_vl, afdx.seq; afdx.note is in each frame with an expert info
-- of this file. A frame check sequence may be recorded or not. Preferences: the plan, from which the links, their BAGs,
-- Lmax and networks are taken, and whose tables and keys each begin a line; without one the BAG of all virtual links and
-- that of some (afdx.bag, afdx.bags); an allowed jitter (afdx.jitter).
--
-- Wireshark itself notes that a unicast address has a time to live of 1, and the number after the padding. To hide both:
--     -o 'uat:expert_severity:"ip.ttl.too_small","Comment"' -o 'uat:expert_severity:"eth.padding_bad","Comment"'

local afdx = Proto("afdx", "AFDX")

local networks = { [0x20] = "A", [0x40] = "B" }
local field = {
    vl = ProtoField.uint16("afdx.vl", "Virtual link"),
    network = ProtoField.string("afdx.network", "Network"),
    end_system = ProtoField.uint16("afdx.end_system", "End system"),
    interface = ProtoField.uint8("afdx.interface", "Interface", base.HEX, networks),
    partition = ProtoField.uint8("afdx.partition", "Partition"),
    sub_vl = ProtoField.uint8("afdx.sub_vl", "Sub-VL"),
    seq = ProtoField.uint8("afdx.seq", "Sequence number"),
    note = ProtoField.bool("afdx.note", "Has a note"),
}
afdx.fields = field

local function warning(name, text, group)
    return ProtoExpert.new("afdx." .. name, text, group or expert.group.PROTOCOL, expert.severity.WARN)
end
local note = {
    gap = warning("seq.gap", "Gap in the sequence numbers", expert.group.SEQUENCE),
    again = warning("seq.repeat", "Repeated sequence number", expert.group.SEQUENCE),
    bag = warning("bag", "Less than a BAG after the last frame"),
    twin = warning("twin", "Differs from its twin", expert.group.CHECKSUM),
    length = warning("length", "The frame doesn't end after its sequence number", expert.group.MALFORMED),
    unknown = warning("unknown", "The plan has no such virtual link"),
    lmax = warning("lmax", "The frame is longer than Lmax"),
    wrong = warning("wrong_network", "The plan has the virtual link on the other network alone"),
    ends = warning("network_ends", "The other network has no frames of the virtual link any more"),
    plan = warning("plan_unread", "The plan can't be read", expert.group.UNDECODED),
}
afdx.experts = note

afdx.prefs.plan = Pref.string("Plan", "", "The path of the plan, whose links, BAGs, Lmax and networks are checked")
afdx.prefs.bag = Pref.uint("BAG in ms", 1, "Without a plan: the BAG of all virtual links but those named below; 0: none is checked")
afdx.prefs.bags = Pref.string("BAG by virtual link", "", "Without a plan, as 1=2 7=128: virtual link 1 has a BAG of 2 ms, 7 one of 128 ms")
afdx.prefs.jitter = Pref.uint("Jitter in us", 0, "How much less than a BAG two frames may lie apart")
afdx.prefs.behind = Pref.uint("Frames behind", 8, "After how many frames that one network lacks it has ended for a virtual link; 0: never")

-- The virtual links of a plan in the usual form, by identifier, each with its keys: a table's head and each key begin a
-- line. Returns nil without a plan, and an empty table if it can't be read.
local function links_of(path)
    if path == "" then return nil end
    local links, file, link = {}, io.open(path), nil
    for line in file and file:lines() or function() end do
        local key, value = line:match("^%s*([%w_]+)%s*=%s*\"?([%w_]+)")
        if line:match("^%s*%[") then
            link = line:match("^%s*%[%[%s*vl%s*%]%]") and {} or nil
        elseif link and key then
            link[key] = tonumber((value:gsub("_", ""))) or value
            if key == "id" then links[link.id] = link end
        end
    end
    if file then file:close() end
    return links
end

-- What was found of each frame, by its number in the capture; of each link on each network the last frame, and whether it
-- ended; frames without their twins; the networks that were seen; the links of the plan.
local found, streams, twins, seen, ended, links

function afdx.init()
    found, streams, twins, seen, ended, links = {}, {}, {}, {}, {}, links_of(afdx.prefs.plan)
end

local function bag_of(vl)
    if links then return links[vl] and links[vl].bag_ms or 0 end
    for link, bag in afdx.prefs.bags:gmatch("(%d+)%s*=%s*(%d+)") do
        if tonumber(link) == vl then return tonumber(bag) end
    end
    return afdx.prefs.bag
end

local function other_of(network)
    return network == "A" and "B" or "A"
end

-- The place of the first frame that a network has of a virtual link, from its number: beside that of the other network.
local function first_place(vl, network, seq)
    local other = streams[vl .. other_of(network)]
    if not other then return seq, 0 end
    local rounds = math.floor((other.place - other.base - seq) / 255 + 0.5)
    return other.base + seq + 255 * math.max(0, rounds), other.base
end

-- Checks the sequence number and the time of a frame. Returns its place among the frames of its virtual link, from 0, by
-- the numbers, 0, 1 to 255, and then 1 again, and the place of the last 0. Returns nil if the number repeats the last one.
local function place_of(told, vl, network, seq, time)
    local last = streams[vl .. network]
    if not last then return first_place(vl, network, seq) end
    local place, base = last.place, last.base
    if seq == last.seq then
        told[#told + 1] = { note.again, "Sequence number " .. seq .. " repeats that of frame " .. last.number }
        return nil
    elseif seq > 0 then
        local step = last.seq == 0 and seq or (seq - last.seq) % 255
        place = place + step
        if step ~= 1 then
            told[#told + 1] = { note.gap, "Sequence number " .. seq .. " follows " .. last.seq }
        end
    else
        -- the end system was reset
        place = place + 1000 - place % 1000
        base = place
        told[#told + 1] = { note.gap, "Sequence number 0 follows " .. last.seq }
    end
    if time - last.time < bag_of(vl) * 1000 - afdx.prefs.jitter then
        told[#told + 1] = { note.bag, (time - last.time) .. " us after frame " .. last.number .. " (BAG " .. bag_of(vl) .. " ms)" }
    end
    return place, base
end

-- Checks a frame against the plan: its link, its length on the wire, its network.
local function check_plan(told, vl, network, length)
    local link = links[vl]
    if not next(links) then
        if not next(seen) then told[#told + 1] = { note.plan, "No virtual link is read from the plan " .. afdx.prefs.plan } end
    elseif not link then
        told[#told + 1] = { note.unknown, "The plan has no virtual link " .. vl }
    else
        if link.lmax and length > link.lmax then
            told[#told + 1] = { note.lmax, length .. " bytes with the frame check sequence (Lmax " .. link.lmax .. ")" }
        end
        if link.networks and link.networks ~= "both" and link.networks:upper() ~= network then
            told[#told + 1] = { note.wrong, "Virtual link " .. vl .. " is on network " .. link.networks:upper() .. " alone" }
        end
    end
end

-- Whether both networks are to carry a link: by the plan, if the capture has both, or if it was seen on both.
local function is_on_both(vl)
    local link = links and links[vl]
    if link then return link.networks ~= "a" and link.networks ~= "b" and seen.A and seen.B end
    return not links and streams[vl .. "A"] and streams[vl .. "B"]
end

-- Reports once that the other network lacks the last frames of a link, until it has one again.
local function check_other(told, vl, network, place)
    local key = vl .. other_of(network)
    local last = streams[key]
    ended[vl .. network] = nil
    if afdx.prefs.behind > 0 and is_on_both(vl) and not ended[key] and place - (last and last.place or -1) >= afdx.prefs.behind then
        local since = last and " since frame " .. last.number or ""
        told[#told + 1] = { note.ends, "No frame of virtual link " .. vl .. " on network " .. other_of(network) .. since }
        ended[key] = true
    end
end

-- `frame` ends with the sequence number.
local function look(told, frame, vl, network, number, time)
    local seq = frame:get_index(frame:len() - 1)
    local place, base = place_of(told, vl, network, seq, time)
    if not place then return end
    streams[vl .. network] = { seq = seq, place = place, base = base, time = time, number = number }
    check_other(told, vl, network, place)
    -- bytes 0 to 10 and from 12 on: all but the interface
    local rest, key = frame:raw(0, 11) .. frame:raw(12), vl .. "." .. place
    local twin = twins[key]
    if not twin or twin.network == network then
        twins[key] = { network = network, rest = rest, number = number }
    else
        if twin.rest ~= rest then
            told[#told + 1] = { note.twin, "Differs from frame " .. twin.number .. " in more than the interface" }
        end
        twins[key] = nil
    end
end

function afdx.dissector(buffer, pinfo, tree)
    if buffer:len() < 60 or buffer(0, 4):uint() ~= 0x03000000 or buffer(6, 3):uint() ~= 0x020000 then return end
    if buffer(12, 2):uint() ~= 0x0800 then return end
    local vl, network = buffer(4, 2):uint(), networks[buffer(11, 1):uint()] or "?"
    -- the sequence number, after the IPv4 packet and its padding; a frame check sequence may follow
    local last = math.max(59, 14 + buffer(16, 2):uint())
    if not pinfo.visited then
        local told, over = {}, buffer:len() - last - 1
        if links then check_plan(told, vl, network, last + 5) end
        found[pinfo.number], seen[network] = told, true
        if over ~= 0 and over ~= 4 then
            told[#told + 1] = { note.length, "The sequence number is byte " .. last + 1 .. " of " .. buffer:len() }
        end
        if over >= 0 then
            local time = math.floor(pinfo.abs_ts * 1000000 + 0.5)
            look(told, buffer(0, last + 1):bytes(), vl, network, pinfo.number, time)
        end
    end
    local branch = tree:add(afdx, buffer(), "AFDX, virtual link " .. vl .. ", network " .. network)
    branch:add(field.vl, buffer(4, 2))
    branch:add(field.network, buffer(11, 1), network)
    branch:add(field.end_system, buffer(9, 2))
    branch:add(field.interface, buffer(11, 1))
    branch:add(field.partition, buffer(29, 1))
    branch:add(field.sub_vl, buffer(18, 2), buffer(18, 2):uint() % 4)
    if last < buffer:len() then branch:add(field.seq, buffer(last, 1)) end
    for k, it in ipairs(found[pinfo.number] or {}) do
        if k == 1 then branch:add(field.note, true):set_generated() end
        branch:add_proto_expert_info(it[1], it[2])
    end
end

register_postdissector(afdx)
