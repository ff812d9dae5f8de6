#!/usr/bin/env python3
"""The rules of docs/RULES.md a second time, in Python's standard library alone.

It is written from the rules and shares no code with the Rattle crates or with the Rust. Each function names the
rules that it carries by their identifiers there. A refusal is the exception Refused, with its number and its offset.

    python3 compare/rules.py                                        the self-test
    python3 compare/rules.py pack|padded|unpack|planlist|vectors    what that program does, standard input to output
"""
import random
import sys
from collections import namedtuple
from itertools import count as counted

UNIT_LIMIT = 1_048_576          # L1, bytes of a unit
MTU_LIMIT = 1_048_576           # L2
PAYLOAD_LIMIT = 1_048_576       # L3, bytes of a payload that the receiver takes
FRAGMENT_LIMIT = 1_048_576      # L4, bytes of an open fragment
FIELD_BYTES = 8                 # L5, bytes of a size field
FIELD_VALUE = 4_294_967_295     # L6, value of a size field
STORE_BYTES = 32_768            # L12 and L15, unit store of pack and planlist, fragment store of unpack
LIST_RECORDS = 512              # L13, OBU list and plan list of pack and planlist
OUTPUT_BYTES = 65_536           # L14, room of pack for a packet, output of unpack
PAYLOAD_STORE = 65_536          # L14, payload buffer of unpack
OBU_NUMBERS = 5                 # L16, numbers of an OBU record in a flat list
PLAN_NUMBERS = 6                # L16, numbers of a plan record in a flat list
END_LIMIT = 4_294_967_295       # L17, where a payload of a plan ends in the output
SHORT_PAYLOAD = 65_533          # L18, the longest payload of a train of version 1
WIDTHS = {1: 2, 2: 4}           # T1, by a train's version the bytes of its length fields
MTU_BYTES = {1: 2, 2: 4}        # G2, by the version of pack's input the bytes of its mtu

Size = namedtuple("Size", "value used shortest")                        # F3, F6
Obu = namedtuple("Obu", "header extension start length size")          # O7
Listed = namedtuple("Listed", "obus padded")                            # O8
Packet = namedtuple("Packet", "first count offset last size start")     # P2
State = namedtuple("State", "begun last open")                          # V1
FRESH = State(False, 0, 0)
Padded = namedtuple("Padded", "lengths sizes")                          # V18
Taken = namedtuple("Taken", "state bytes padded fragment_lost element_lost")    # V12, V18

WORDS = {                       # G7, what a refusal says in brackets on standard error
    1: "the mtu is over its limit",
    2: "the unit is over its limit",
    3: "an OBU's extension byte is missing",
    4: "an OBU's size field is missing",
    5: "the unit ends inside a size field",
    6: "a size field is too long or its value too large",
    7: "an OBU runs past the end of the unit",
    8: "the OBU list is full",
    9: "the plan list is too short",
    10: "the output is too short for the payloads",
    11: "no such packet, or its record does not fit",
    12: "the state does not fit its store",
    13: "the payload is empty or over its limit",
    14: "the number is not ahead",
    15: "N and Z are both set",
    16: "an element's length field is bad or missing",
    17: "an element is empty, missing or past the end",
    18: "a finished OBU is not well formed",
    19: "the open fragment is too long",
    20: "the output is too short for the OBUs",
    21: "no train of a known version",
    22: "the train ends inside a record",
    23: "a record's length is below 3",
    31: "the list or the plan is not that of this unit",
}


class Refused(Exception):
    """W14. A refusal: its number, and its offset (0 where the rules name none)."""

    def __init__(self, number, offset=0):
        super().__init__(number, offset)
        self.number = number
        self.offset = offset


# ---- size fields

def is_padded(field):
    """F6. Whether these bytes of a size field are more than it needs: the last of several adds nothing. No bytes are no field."""
    return len(field) > 1 and field[-1] == 0


def read_field(data, at=0):
    """F1 to F3, F6. The size field at `at`: value, bytes used and whether they are its shortest form, or R5 or R6."""
    left = len(data) - at
    value = 0
    for i in range(min(FIELD_BYTES, left)):
        byte = data[at + i]
        value += (byte & 127) * 128 ** i
        if byte < 128:
            if value > FIELD_VALUE:
                raise Refused(6)
            return Size(value, i + 1, not is_padded(data[at:at + i + 1]))
    raise Refused(5 if left < FIELD_BYTES else 6)


def write_field(value):
    """F4. The shortest size field of this value."""
    field = bytearray()
    while value >= 128:
        field.append(128 + value % 128)
        value //= 128
    field.append(value)
    return bytes(field)


def field_size(value):
    """F4. How long the shortest size field of this value is."""
    size = 1
    while value >= 128:
        value //= 128
        size += 1
    return size


# ---- OBUs

def obu_type(header):
    """O2, H7. Bits 3 to 6 of the header byte."""
    return header >> 3 & 15


def has_extension(header):
    """O2, O3. Bit 2: an extension byte follows."""
    return header & 4 != 0


def has_size(header):
    """O2, O4. Bit 1: a size field follows."""
    return header & 2 != 0


def is_kept(header):
    """W4. Types 2, 8 and 15 are dropped, all others kept."""
    return obu_type(header) not in (2, 8, 15)


def obu_at(unit, at):
    """O2 to O7. The OBU whose header byte is at `at`, or R3 to R7 in this order, at `at`."""
    header, extension, after = unit[at], 0, at + 1
    if has_extension(header):
        if after == len(unit):
            raise Refused(3, at)
        extension = unit[after]
        after += 1
    if has_size(header):
        if after == len(unit):
            raise Refused(4, at)
        try:
            length, used, _ = read_field(unit, after)
        except Refused as bad:
            raise Refused(bad.number, at) from None
        start = after + used
        if start + length > len(unit):
            raise Refused(7, at)
    else:
        start, length = after, len(unit) - after
    return Obu(header, extension, start, length, after - at + length)


def walk(unit, at=0, space=None):
    """O1, O5, O8, C1. The kept OBUs from `at` on, and the refusal that ends them (R3 to R8) or None; L1 is not asked.

    `space` is how many records the lent list has; None is any number.
    """
    kept = []
    try:
        while at < len(unit):
            obu = obu_at(unit, at)
            if is_kept(obu.header):
                if len(kept) == space:
                    raise Refused(8, at)
                kept.append(obu)
            at = obu.start + obu.length
    except Refused as bad:
        return kept, bad
    return kept, None


def kept_obus(unit, space=None):
    """C1. The records of a unit, or R2 to R8."""
    if len(unit) > UNIT_LIMIT:
        raise Refused(2, 0)
    kept, bad = walk(unit, 0, space)
    if bad is not None:
        raise bad
    return kept


def padded_sizes(unit):
    """F6, O8. How many OBUs of a unit that is not refused have a padded size field, the dropped ones too."""
    found = at = 0
    while at < len(unit):
        obu = obu_at(unit, at)
        found += is_padded(unit[at + (2 if has_extension(obu.header) else 1):obu.start])
        at = obu.start + obu.length
    return found


def fill(numbers, records):
    """C9, P15. Write records into the first numbers of a lent flat list; the rest stays."""
    at = 0
    for record in records:
        numbers[at:at + len(record)] = record
        at += len(record)


def parse_obus(unit, obus):
    """The list call (C1, C5, O8, O9): fills the flat list `obus`, gives the numbers of kept OBUs and of padded size fields, or R2 to R8."""
    kept = kept_obus(unit, len(obus) // OBU_NUMBERS)
    fill(obus, kept)
    return Listed(len(kept), padded_sizes(unit))


def sent(unit, obu):
    """O10. A kept OBU on the wire: bit 1 cleared, extension byte if any, payload; no size field."""
    head = bytes([obu.header & ~2])
    if has_extension(obu.header):
        head += bytes([obu.extension])
    return head + unit[obu.start:obu.start + obu.length]


# ---- the plan

def largest_fragment(room):
    """P12. The largest n that fits into `room` with its length field; 0 where none does."""
    return max(0, *(min(room - b, 128 ** b - 1) for b in range(1, 6)))


def cost_of_previous(packet):
    """P4. What a further element costs: the previous one's length field, unless there is none or it is paid."""
    return 0 if packet.count == 0 or packet.count >= 4 else field_size(packet.last)


def close(closed, packet):
    """P3, P16. A packet closed: it goes to `closed`. Gives where the next one's payload starts, right after its own."""
    closed.append(packet)
    return packet.start + packet.size + 1


def place(closed, packet, index, size, room):
    """P5 to P10, P16. OBU `index`, of this size, placed. Closed packets go to `closed`; gives the new current one."""
    cost = cost_of_previous(packet)
    if room - packet.size < cost + (2 if packet.count >= 3 else 1):
        packet, cost = Packet(index, 0, 0, 0, 0, close(closed, packet)), 0      # P5, a new packet
    first, count, offset, _, used, start = packet
    left = room - used - cost
    has_length = count >= 3                         # from the fourth element on
    need = size + field_size(size) if has_length else size
    if need < left:                                 # P6, whole
        return Packet(first, count + 1, offset, size, used + cost + need, start)
    fragment = min(size - 1, largest_fragment(left) if has_length else left)
    if fragment == 0:
        start = close(closed, packet)               # P8, taken out, the charge too
    else:                                           # P7, first fragment
        length = field_size(fragment) if has_length else 0
        start = close(closed, Packet(first, count + 1, offset, fragment, used + cost + length + fragment, start))
    at = fragment
    while size - at > room:                         # P9, middle fragments
        start = close(closed, Packet(index, 1, at, room, room, start))
        at += room
    return Packet(index, 1, at, size - at, size - at, start)    # P10, last fragment


def plan_of(sizes, mtu):
    """P1, P3, P16. The plan of kept OBUs of these sizes: none without OBUs or with an mtu below 3."""
    if not sizes or mtu < 3:
        return []
    closed, packet = [], Packet(0, 0, 0, 0, 0, 0)
    for index, size in enumerate(sizes):
        packet = place(closed, packet, index, size, mtu - 1)
    close(closed, packet)
    return closed


def plan_unit(mtu, unit, obus, plan):
    """The plan call (C2, C5, C6): fills both flat lists, gives the numbers of OBUs and packets, or R1 to R9."""
    if mtu > MTU_LIMIT:
        raise Refused(1)
    count = parse_obus(unit, obus).obus
    packets = plan_of(obus[4:OBU_NUMBERS * count:OBU_NUMBERS], mtu)
    if len(packets) > len(plan) // PLAN_NUMBERS:
        raise Refused(9)
    fill(plan, packets)
    return count, len(packets)


# ---- aggregation header

def temporal_id(obu):
    """H9. Bits 5 to 7 of the extension byte; 0 without one."""
    return obu.extension >> 5 & 7 if has_extension(obu.header) else 0


def is_shown_key_frame(sequence, frame):
    """H9. Whether a frame is a key frame that is shown, by the first payload bytes of its sequence header and of its frame header."""
    if sequence & 8:                                # reduced_still_picture_header
        return True
    show_existing_frame, frame_type, show_frame = frame >> 7, frame >> 5 & 3, frame >> 4 & 1
    return (show_existing_frame, frame_type, show_frame) == (0, 0, 1)


def begins_sequence(unit, obus):
    """H5, H9. Whether the first frame header has a sequence header before it, and is of a shown key frame of temporal layer 0."""
    sequence = None                                 # the last sequence header so far
    for obu in obus:
        if obu_type(obu.header) == 1:
            sequence = obu
        if obu_type(obu.header) in (3, 6):
            return (sequence is not None and sequence.length > 0 and obu.length > 0 and temporal_id(obu) == 0
                    and is_shown_key_frame(unit[sequence.start], unit[obu.start]))
    return False


def header_byte(unit, obus, packet, k):
    """H1 to H5. The aggregation header of packet k, from the unit and records."""
    z = packet.offset > 0
    begins = packet.offset if packet.count == 1 else 0
    y = begins + packet.last < obus[packet.first + packet.count - 1].size
    w = packet.count if packet.count <= 3 else 0
    n = k == 0 and begins_sequence(unit, obus)
    return 128 * z + 64 * y + 16 * w + 8 * n


def records(numbers, kind, width):
    """O9. The whole records of a flat list; an unfinished last one does not count."""
    return [kind(*numbers[i:i + width]) for i in range(0, len(numbers) // width * width, width)]


def is_usable(packet, obus):
    """R11, H7, L17. Whether a record has elements, all of them of these OBUs, and a payload that ends within the limit."""
    return packet.count > 0 and packet.first + packet.count <= len(obus) and packet.start + packet.size + 1 <= END_LIMIT


def are_inside(unit, obus):
    """R11, H7. Whether the OBU payloads of all records lie in the unit."""
    return all(obu.start + obu.length <= len(unit) for obu in obus)


def get_aggregation_header(unit, obus, plan, k):
    """The header call (H6, H7) over a unit and flat lists, of which all that is lent counts: the byte, or R11."""
    obus, plan = records(obus, Obu, OBU_NUMBERS), records(plan, Packet, PLAN_NUMBERS)
    if k >= len(plan) or not is_usable(plan[k], obus) or not are_inside(unit, obus):
        raise Refused(11)
    return header_byte(unit, obus, plan[k], k)


# ---- payloads

def pieces(unit, obus, packet, memo):
    """Y2 to Y4. The elements of a packet in order: whether each has its length in front, and its bytes.

    `memo` keeps the wire form of the OBU last used.
    """
    found = []
    for j in range(packet.count):
        index = packet.first + j
        if memo.get("index") != index:
            memo["index"], memo["sent"] = index, sent(unit, obus[index])
        begins = packet.offset if j == 0 else 0
        is_last = j == packet.count - 1
        ends = begins + packet.last if is_last else obus[index].size
        found.append((not is_last or packet.count >= 4, memo["sent"][begins:ends]))
    return found


def payload_of(unit, obus, plan, k, memo):
    """Y1, Y4. The payload of packet k."""
    made = bytearray([header_byte(unit, obus, plan[k], k)])
    for has_length, part in pieces(unit, obus, plan[k], memo):
        if has_length:
            made += write_field(len(part))
        made += part
    return bytes(made)


def payloads(unit, obus, plan):
    """Y1, Y4. The payload of every packet, in order."""
    memo = {}
    return [payload_of(unit, obus, plan, k, memo) for k in range(len(plan))]


def same_lists(mtu, unit, obus, plan):
    """R31, C2. The kept OBUs and the plan of this unit and mtu, or R1 to R7; or R31, if the lent flat lists do not begin with them.

    What stands in the lists behind these records is not looked at.
    """
    if mtu > MTU_LIMIT:
        raise Refused(1)
    kept = kept_obus(unit)
    packets = plan_of([obu.size for obu in kept], mtu)
    for lent, own in ((obus, kept), (plan, packets)):
        numbers = [number for record in own for number in record]
        if lent[:len(numbers)] != numbers:
            raise Refused(31)
    return kept, packets


def put(out, made):
    """R10, C7, C10. Bytes written to the front of an output: how many, or R10 and nothing written."""
    if len(made) > len(out):
        raise Refused(10)
    out[:len(made)] = made
    return len(made)


def write_packet(mtu, unit, obus, plan, k, out):
    """The writing call (C2, C7, C10, Y5): packet k alone, into the output. Gives its bytes; or R1 to R7, R31, R11, R10."""
    kept, packets = same_lists(mtu, unit, obus, plan)
    if k >= len(packets):
        raise Refused(11)
    return put(out, payload_of(unit, kept, packets, k, {}))


def write_packets(mtu, unit, obus, plan, first, count, out):
    """The writing call for a run: so many packets from one on, one after the other, and R10 by all of them together.

    R11 if one of them is missing; of no packets none is.
    """
    kept, packets = same_lists(mtu, unit, obus, plan)
    if count > 0 and first + count > len(packets):
        raise Refused(11)
    memo = {}
    return put(out, b"".join([payload_of(unit, kept, packets, k, memo) for k in range(first, first + count)]))


# ---- elements of a payload

def check_payload_length(data):
    """R13, L3."""
    if not 1 <= len(data) <= PAYLOAD_LIMIT:
        raise Refused(13)


def one_element(data, at):
    """E4, E6. The element with a length field at `at`: start, length and next cursor, or R16 or R17 at `at`."""
    try:
        length, used, _ = read_field(data, at)
    except Refused:
        raise Refused(16, at) from None
    start = at + used
    if length == 0 or start + length > len(data):
        raise Refused(17, at)
    return start, length, start + length


def fields_and_elements(data):
    """E1 to E6. The elements of a payload of good length, each behind its length field, no bytes where it has none.

    Or R15, R16 or R17 with the place in the payload.
    """
    if data[0] & 8 and data[0] & 128:
        raise Refused(15)
    w = data[0] >> 4 & 3
    found, at = [], 1
    while (at < len(data) or not found) if w == 0 else len(found) < w - 1:
        if at == len(data):
            raise Refused(17 if w == 0 else 16, at)
        begins = at
        start, length, at = one_element(data, begins)
        found.append((data[begins:start], data[start:start + length]))
    if w > 0:
        if at == len(data):
            raise Refused(17, at)
        found.append((b"", data[at:]))
    return found


def elements(data):
    """E1 to E6. The elements alone."""
    return [part for _, part in fields_and_elements(data)]


def element(data, k):
    """The element call (E7, E8): element k, or the empty part."""
    try:
        check_payload_length(data)
        found = elements(data)
    except Refused:
        return b""
    return found[k] if k < len(found) else b""


# ---- the receiver

def taken_apart(obu):
    """O11, V9. The header bytes of a finished OBU, its size field, no bytes where it has none, and its OBU payload; or R18."""
    if not obu:
        raise Refused(18)                           # no element is empty, so the receiver never asks this
    header, after = obu[0], 1
    if has_extension(header):
        if len(obu) < 2:
            raise Refused(18)
        after = 2
    body = after
    if has_size(header):
        try:
            length, used, _ = read_field(obu, after)
        except Refused:
            raise Refused(18) from None
        body += used
        if length != len(obu) - body:
            raise Refused(18)
    return obu[:after], obu[after:body], obu[body:]


def wire(obu):
    """O11, V9. What a finished OBU hands out, or R18. Dropped types are checked too and hand out nothing."""
    head, _, body = taken_apart(obu)
    if not is_kept(head[0]):
        return b""
    return bytes([head[0] | 2]) + head[1:] + write_field(len(body)) + body


def receive(state, number, data, store, out):
    """The receive call (C3, C8, C10, V2 to V16, V18): what it answers to a packet that it takes, or R12 to R20."""
    if state.open > len(store) or state.open > FRAGMENT_LIMIT:
        raise Refused(12)
    check_payload_length(data)
    distance = (number - state.last) % 65_536
    if state.begun and not 1 <= distance <= 32_767:
        raise Refused(14)
    try:
        found = fields_and_elements(data)
    except Refused as bad:
        raise Refused(bad.number) from None
    lengths, parts = [field for field, _ in found], [part for _, part in found]
    z, y = data[0] & 128 != 0, data[0] & 64 != 0
    in_step = state.begun and distance == 1
    fragment_lost = state.open > 0 and not (in_step and z)      # V5
    element_lost = z and not (state.open > 0 and in_step)       # V6
    if element_lost:
        parts = parts[1:]
    elif z:
        parts[0] = bytes(store[:state.open]) + parts[0]         # V6, joined
    left_open = parts.pop() if y and parts else b""
    handed = b"".join([wire(part) for part in parts])
    sizes = [taken_apart(part)[1] for part in parts]            # V18: where an OBU is finished, wherever its bytes came
    padded = Padded(sum(map(is_padded, lengths)), sum(map(is_padded, sizes)))
    if len(left_open) > len(store) or len(left_open) > FRAGMENT_LIMIT:
        raise Refused(19)
    if len(handed) > len(out):
        raise Refused(20)
    store[:len(left_open)] = left_open
    out[:len(handed)] = handed
    return Taken(State(True, number, len(left_open)), len(handed), padded, fragment_lost, element_lost)


# ---- the train file

def train_version(most):
    """T1, L18. The version of a train whose payloads have at most so many bytes."""
    return 2 if most > SHORT_PAYLOAD else 1


def train_record(number, data, version=1):
    """T2. One record of a train of this version."""
    return (len(data) + 2).to_bytes(WIDTHS[version], "big") + number.to_bytes(2, "big") + data


def read_width(source):
    """T1. The bytes of a length field, by the version byte of a train; or R21."""
    version = source.read(1, "train")
    if not version or version[0] not in WIDTHS:
        raise Refused(21)
    return WIDTHS[version[0]]


def read_record(source, width, of):
    """T2, T3, C4. The next record of a train as number and payload, None at its end, or R22 or R23.

    Length and number are read at once, then the payload.
    """
    fields = source.read(width + 2, of)
    if not fields:
        return None
    if len(fields) < width:
        raise Refused(22)
    length = int.from_bytes(fields[:width], "big")
    if length < 3:
        raise Refused(23)
    payload = source.read(length - 2, of)
    if len(fields) + len(payload) < width + length:
        raise Refused(22)
    return int.from_bytes(fields[width:], "big"), payload


# ---- the programs

Written = namedtuple("Written", "of data")      # bytes for standard output, and what they are of (G14)
Said = namedtuple("Said", "line")               # a line for standard error (G7)


class Failed(Exception):
    """G14. What a failed read or write was of, and which of the two it was."""


class Source:
    """G1, G14. What a program reads: these bytes, and behind them the end, or a read that fails."""

    def __init__(self, data, fails=False):
        self.data, self.fails, self.at = data, fails, 0

    def read(self, count, of):
        """The next `count` bytes, fewer at the end; `of` is what they are of."""
        part = self.data[self.at:self.at + count]
        self.at += len(part)
        if self.fails and len(part) < count:
            raise Failed(of, "read")
        return part


def refused(of, number):
    """G7. The line of a refusal: its number, and its words in brackets."""
    return Said("%s: %d (%s)" % (of, number, WORDS[number]))


def read_pack_head(source):
    """G2, G6. The head of pack's input as mtu and first number, or None. The version byte is read first, then what its version has."""
    version = source.read(1, "input")
    if not version or version[0] not in MTU_BYTES:
        return None
    width = MTU_BYTES[version[0]]
    rest = source.read(width + 2, "input")
    return (int.from_bytes(rest[:width], "big"), int.from_bytes(rest[width:], "big")) if len(rest) == width + 2 else None


def unit_steps(source, mtu, steps):
    """G4, G7. What is done with the units behind the head: `steps` of each that is planned, and a line for one that is cut or refused.

    `steps` is given which unit it is, from 0, the unit, and its records and those of its plan.
    """
    for index in counted():
        of = "unit %d" % index
        field = source.read(4, of)
        if not field:
            return
        length = int.from_bytes(field, "big")
        if len(field) < 4 or length > STORE_BYTES:
            yield Said("%s: cut" % of)
            return
        unit = source.read(length, of)
        if len(unit) < length:
            yield Said("%s: cut" % of)
            return
        obus, plan = [0] * (OBU_NUMBERS * LIST_RECORDS), [0] * (PLAN_NUMBERS * LIST_RECORDS)
        try:
            count, packets = plan_unit(mtu, unit, obus, plan)
        except Refused as bad:
            yield refused(of, bad.number)
            return
        yield from steps(index, unit, records(obus[:OBU_NUMBERS * count], Obu, OBU_NUMBERS),
                         records(plan[:PLAN_NUMBERS * packets], Packet, PLAN_NUMBERS))


def pack_steps(source):
    """G2 to G4, G6, G7. What `pack` does, step by step. The train's version goes by the mtu, not by the input's version."""
    head = read_pack_head(source)
    if head is None:
        yield Said("input: no head")
        return
    mtu, first = head
    version, numbers, out = train_version(mtu), counted(first), bytearray(OUTPUT_BYTES)

    def packed(index, unit, obus, plan):
        for made in payloads(unit, obus, plan):
            size = put(out, made)                   # never R10: a payload is hardly longer than its unit, and L12 is half of L14
            yield Written("unit %d" % index, train_record(next(numbers) % 65_536, bytes(out[:size]), version))

    yield Written("train", bytes([version]))
    yield from unit_steps(source, mtu, packed)


def padded_steps(source):
    """G17. What `padded` does, step by step: it reads and stops as `pack` does, and says the same."""
    head = read_pack_head(source)
    if head is None:
        yield Said("input: no head")
        return

    def counts(index, unit, obus, plan):
        yield Written("unit %d" % index, b"%d %d\n" % (index, padded_sizes(unit)))

    yield from unit_steps(source, head[0], counts)


def receive_stored(state, number, data, store, out):
    """G5, G16, L14. What `unpack` does with a record: one that is too long for its payload buffer is passed over as R13."""
    if len(data) > PAYLOAD_STORE:
        raise Refused(13)
    return receive(state, number, data, store, out)


def unpack_steps(source):
    """G5 to G7, G15. What `unpack` does, step by step."""
    try:
        width = read_width(source)
    except Refused as bad:
        yield refused("train", bad.number)
        return
    state, store, out = FRESH, bytearray(STORE_BYTES), bytearray(OUTPUT_BYTES)
    packets = fragments = elements = 0              # G15, what was lost
    for index in counted():
        of = "record %d" % index
        try:
            record = read_record(source, width, of)
        except Refused as bad:
            yield refused(of, bad.number)
            break
        if record is None:
            break
        try:
            taken = receive_stored(state, *record, store, out)
        except Refused as bad:
            yield refused(of, bad.number)
            packets += 1
            continue
        yield Written(of, bytes(out[:taken.bytes]))
        state = taken.state
        fragments += taken.fragment_lost
        elements += taken.element_lost
    fragments += state.open > 0
    if packets or fragments or elements:
        yield Said("lost: %d packets passed over, %d open fragments, %d leading elements" % (packets, fragments, elements))


def planlist_steps(source):
    """G8 to G11. What `planlist` does, step by step."""
    of = "unit 0"
    head = source.read(7, "input")
    length = int.from_bytes(head[3:7], "big")
    good = len(head) == 7 and head[0] == 1 and length <= STORE_BYTES
    unit = source.read(length, of) if good else b""
    if not good or len(unit) < length or source.read(1, of):
        yield Written(of, b"bad input\n")
        return
    obus, plan = [0] * (OBU_NUMBERS * LIST_RECORDS), [0] * (PLAN_NUMBERS * LIST_RECORDS)
    try:
        count, packets = plan_unit(int.from_bytes(head[1:3], "big"), unit, obus, plan)
    except Refused as bad:
        yield Written(of, b"refused %d %d\n" % (bad.number, bad.offset))
        return
    yield Written(of, b"obus %d\npackets %d\n" % (count, packets))
    obus, plan = obus[:OBU_NUMBERS * count], plan[:PLAN_NUMBERS * packets]
    for k, packet in enumerate(records(plan, Packet, PLAN_NUMBERS)):
        row = (k, *packet[:-1], get_aggregation_header(unit, obus, plan, k), packet.start)
        yield Written(of, b"%d %d %d %d %d %d %02X %d\n" % row)


STEPS = {"pack": pack_steps, "padded": padded_steps, "unpack": unpack_steps, "planlist": planlist_steps}


def run(name, data, fails=False, writes=None):
    """G1, G14. What comes of a program's steps on an input, in order: what is written and what is said.

    With `fails` the read behind the input's last byte fails; `writes` is how many writes succeed, None all of them.
    """
    done = 0
    try:
        for step in STEPS[name](Source(data, fails)):
            if type(step) is Written:
                if not step.data:                   # no bytes, no write
                    continue
                if done == writes:
                    raise Failed(step.of, "write")
                done += 1
            yield step
    except Failed as failed:
        yield Said("%s: %s failed" % failed.args)


def step_bytes(step):
    """What a step puts on its stream."""
    return step.data if type(step) is Written else b"%s\n" % step.line.encode()


def outputs(name, data):
    """What a program puts on standard output and on standard error."""
    steps = list(run(name, data))
    return tuple(b"".join(step_bytes(step) for step in steps if type(step) is kind) for kind in (Written, Said))


def planlist(data):
    """What `planlist` prints."""
    return outputs("planlist", data)[0].decode()


def records_text(records):
    """Records as `vectors` prints them after their count."""
    return "%d %s" % (len(records), ";".join([",".join(map(str, record)) for record in records])) if records else "0"


def vectors_line(mtu, obu_numbers, plan_numbers, out_bytes, unit):
    """What `vectors` answers to one case: an mtu, lent lists of so many numbers, an output of so many bytes, a unit.

    The plan call (C2), then the writing call for packet after packet, each into the whole output; the lent slices themselves are not
    made here, since only their lengths count.
    """
    try:
        if mtu > MTU_LIMIT:
            raise Refused(1)
        kept = kept_obus(unit, obu_numbers // OBU_NUMBERS)
        plan = plan_of([obu.size for obu in kept], mtu)
        if len(plan) > plan_numbers // PLAN_NUMBERS:
            raise Refused(9)
        made = payloads(unit, kept, plan)
        if any(len(p) > out_bytes for p in made):
            raise Refused(10)
    except Refused as bad:
        return "refused %d %d" % (bad.number, bad.offset)
    line = "obus %s packets %s" % (records_text(kept), records_text(plan))
    if plan:
        line += " headers %s payloads %s" % (",".join(["%02X" % header_byte(unit, kept, p, k) for k, p in enumerate(plan)]),
                                             ",".join([p.hex().upper() for p in made]))
    return line


def unit_of_text(text):
    """A unit as `vectors` reads it: hex or `-`; `*` and a number repeat the last byte until there are so many."""
    digits, _, wanted = text.partition("*")
    unit = b"" if digits == "-" else bytes.fromhex(digits)
    return unit + unit[-1:] * (int(wanted) - len(unit)) if wanted else unit


def vectors(text):
    """What `vectors` prints."""
    lines = []
    for line in text.splitlines():
        *numbers, unit = line.split(" ")
        lines.append(vectors_line(*map(int, numbers), unit_of_text(unit)) + "\n")
    return "".join(lines)


# ---- self-test

def answer(call, *args):
    """A call's answer, or its refusal as (number, offset) in a list."""
    try:
        return call(*args)
    except Refused as bad:
        return [bad.number, bad.offset]


def written(call, *args):
    """What a writing call writes into an output of so many bytes, the last of the arguments."""
    *args, space = args
    out = bytearray(space)
    return bytes(out[:call(*args, out)])


def shown(mtu, unit):
    """The payloads of a unit as the rules' table shows them, or its refusal."""
    obus, plan, unit = [0] * 4096, [0] * 4096, bytes.fromhex(unit)
    try:
        _, packets = plan_unit(mtu, unit, obus, plan)
        return " / ".join(written(write_packet, mtu, unit, obus, plan, k, 4096).hex(" ").upper() for k in range(packets))
    except Refused as bad:
        return "%d at %d" % (bad.number, bad.offset)


LONG = "12 00 0A 03 11 22 33 32 05 A1 A2 A3 A4 A5"
UNIT_ROWS = [  # unit, mtu, payloads or refusal
    ("", 1200, ""),
    ("0A 01 7F", 2, ""),
    ("0A 01 7F", 3, "50 08 / 90 7F"),
    ("0A 01 7F", 4, "10 08 7F"),
    ("0A 01 7F 32 00", 5, "10 08 7F / 10 30"),
    (LONG, 20, "20 04 08 11 22 33 30 A1 A2 A3 A4 A5"),
    (LONG, 3, "50 08 11 / 90 22 33 / 50 30 A1 / D0 A2 A3 / 90 A4 A5"),
    ("32 00" * 3, 20, "30 01 30 01 30 30"),
    ("32 00" * 4, 20, "00 01 30 01 30 01 30 01 30"),
    ("34 08", 3, "50 34 / 90 08"),
    ("36 08 01 C1", 3, "50 34 08 / 90 C1"),
    ("36", 20, "3 at 0"),
    ("32", 20, "4 at 0"),
    ("32 FF", 20, "5 at 0"),
    ("32 02 A1", 20, "7 at 0"),
    ("32 80 80 80 80 10", 20, "6 at 0"),
    ("32" + "80" * 7 + "00", 20, "10 30"),
    # beyond the table
    ("36 08", 20, "4 at 0"),
    ("32 80", 20, "5 at 0"),
    ("32" + "80" * 8, 20, "6 at 0"),
    ("32" + "80" * 8 + "00", 20, "6 at 0"),
    ("32 00" * 3 + "32 06" + "A1" * 6, 8, "30 01 30 01 30 30 / 50 30 A1 A1 A1 A1 A1 / 90 A1"),
    ("B3 01 7F", 20, "10 B1 7F"),
    ("0A 01 7F", 65_534, "10 08 7F"),
    ("0A 01 7F", 1_048_576, "10 08 7F"),
    ("0A 01 7F", 1_048_577, "1 at 0"),
]
NEW_ROWS = [  # H10 and more: unit, N of packet 0
    ("0A 01 00 32 01 10", 1), ("0A 01 00 1A 01 10", 1), ("0A 01 00 3A 01 10", 0), ("0A 01 00 22 01 10", 0),
    # no frame header
    ("0A 01 00", 0), ("0A 01 08", 0), ("08", 0),
    # show_frame, frame_type, show_existing_frame; the other bits of the byte
    ("0A 01 00 32 01 00", 0), ("0A 01 00 32 01 30", 0), ("0A 01 00 32 01 50", 0), ("0A 01 00 32 01 70", 0),
    ("0A 01 00 32 01 90", 0), ("0A 01 00 32 01 1F", 1), ("0A 01 00 32 03 1F FF FF", 1), ("0A 01 00 32 02 00 10", 0),
    # reduced_still_picture_header; the other bits of the byte
    ("0A 01 08 32 01 FF", 1), ("0A 01 08 32 01 00", 1), ("0A 01 F7 32 01 FF", 0), ("0A 01 F7 32 01 10", 1),
    ("0A 02 00 08 32 01 FF", 0),
    # the last sequence header before the frame header
    ("0A 01 08 0A 01 00 32 01 FF", 0), ("0A 01 00 0A 01 08 32 01 FF", 1), ("32 01 10 0A 01 00", 0),
    ("32 01 10 0A 01 00 32 01 10", 0), ("0A 01 00 32 01 FF 0A 01 08", 0), ("0A 01 08 32 01 FF 0A 01 00", 1),
    # empty payloads
    ("0A 00 32 01 10", 0), ("0A 01 00 32 00", 0), ("0A 01 08 32 00", 0), ("0A 00 0A 01 00 32 01 10", 1),
    ("0A 01 00 0A 00 32 01 10", 0), ("0A 01 00 32 01 10 0A 00 32 00", 1), ("0A 01 00 32 00 32 01 10", 0),
    # temporal_id, and the rest of the extension byte; that of the sequence header
    ("0A 01 00 36 20 01 10", 0), ("0A 01 00 36 40 01 10", 0), ("0A 01 00 36 80 01 10", 0), ("0A 01 00 36 18 01 10", 1),
    ("0A 01 00 36 1F 01 10", 1), ("0A 01 08 36 20 01 FF", 0), ("0A 01 08 36 18 01 FF", 1), ("0E E0 01 00 32 01 10", 1),
    # the first frame header; other OBUs before, between and behind
    ("0A 01 00 32 01 10 32 01 30", 1), ("0A 01 00 32 01 30 32 01 10", 0), ("0A 01 00 1A 01 10 22 01 00", 1),
    ("0A 01 00 3A 01 00 32 01 10", 1), ("12 00 0A 01 00 32 01 10", 1), ("2A 01 04 0A 01 00 2A 01 04 32 01 10", 1),
    ("2A 00 0A 01 00 30 10", 1),
]
FRAGMENTS = {0: 0, 1: 0, 2: 1, 128: 127, 129: 127, 130: 128, 16_385: 16_383, 16_386: 16_383, 16_387: 16_384}
ELEMENT_ROWS = [  # payload, its elements or the refusal with its place
    ("00", [17, 1]), ("10", [17, 1]), ("20", [16, 1]), ("30", [16, 1]), ("20 01 30", [17, 3]), ("30 01 30", [16, 3]),
    ("00 01 30", ["30"]), ("20 01 30 30", ["30", "30"]), ("00 00", [17, 1]), ("20 00 30", [17, 1]),
    ("00 02 30", [17, 1]), ("00 80", [16, 1]), ("00 81 00 30", ["30"]), ("88 01 30", [15, 0]), ("08 01 30", ["30"]),
    ("00 80 80 80 80 10 30", [16, 1]), ("00 01 30 FF", [16, 3]), ("00 01 30 02 30", [17, 3]), ("17 30", ["30"]),
    ("30 01 30 02 31 32 33", ["30", "3132", "33"]), ("00" + " 01 30" * 5, ["30"] * 5),
]
WIRE_ROWS = [  # a finished OBU, what it hands out or 18
    ("", None), ("30", "32 00"), ("30 A1", "32 01 A1"), ("32 00", "32 00"), ("32 01 A1", "32 01 A1"),
    ("32 81 00 A1", "32 01 A1"),
    ("34 08", "36 08 00"), ("36 08 00", "36 08 00"), ("B1 A1", "B3 01 A1"), ("10", ""), ("12 00", ""), ("40 01", ""),
    ("78 01", ""), ("12", None), ("34", None), ("14", None), ("36 08", None), ("32", None), ("32 80", None),
    ("32 00 A1", None), ("32 02 A1", None), ("32" + "80" * 8 + "00", None), ("30" + "A1" * 128, "32 80 01" + "A1" * 128),
]


PADDED_UNITS = [  # unit, its kept OBUs and padded size fields, or the refusal
    ("", (0, 0)), ("12 00", (0, 0)), ("32 80 00 12 81 00 01", (1, 2)), ("12 80 00", (0, 1)), ("32 80 00", (1, 1)),
    ("42 81 00 A1 7A 80 80 00 12 80 00 32 00", (1, 3)), ("32 00 0A 81 00 A1 30", (3, 1)), ("32 80 00" * 5, (5, 5)),
    # bytes that look so: of a payload, of an OBU without a size field, an extension byte
    ("32 02 80 00", (1, 0)), ("30 80 00", (1, 0)), ("10 80 00", (0, 0)), ("36 80 00", (1, 0)), ("36 80 80 00", (1, 1)),
    ("34 80 00", (1, 0)),
    # 2 to 8 bytes; 128 and 16,384 in one byte more than they need
    *(("32" + "80" * n + "00 3A 01 A1", (2, 1)) for n in range(1, 8)),
    ("32 80 01" + "A1" * 128, (1, 0)), ("32 80 81 00" + "A1" * 128, (1, 1)), ("32 80 80 01" + "A1" * 16_384, (1, 0)),
    ("32 80 80 81 00" + "A1" * 16_384, (1, 1)),
    # a refusal carries no count
    ("32 80 00 36", [3, 3]), ("32 80 00 32 82 00 A1", [7, 3]), ("32 80 00 32" + "80" * 8 + "00", [6, 3]),
]
PADDED_PACKETS = [  # numbers, payloads, and of each its padded length fields and size fields, or its refusal; what is handed out
    ("three OBUs", "32 00" * 3, (7, "30 81 00 30 81 00 30 32 80 00", 2, 1)),
    ("nothing padded", "32 01 A1 32 00", (7, "00 03 32 01 A1 01 30", 0, 0)),
    # W 0, and W with a last element that has no length field; bytes that look so
    ("W 0", "32 00 32 01 A1 32 00", (7, "00 81 00 30 82 80 00 30 A1 01 30", 2, 0)),
    ("W 0, eight bytes", "32 01 A1", (7, "00 82 80 80 80 80 80 80 00 30 A1", 1, 0)),
    ("W 1", "82 01 00", (7, "10 80 00", 0, 0)), ("W 2", "32 00 82 01 00", (7, "20 01 30 80 00", 0, 0)),
    ("W 3", "32 00 32 00 82 01 00", (7, "30 01 30 81 00 30 80 00", 1, 0)),
    ("one length of 128", "32 7F" + "A1" * 127 + "32 00", (7, "20 80 01 30" + "A1" * 127 + "30", 0, 0)),
    ("one length of 128, padded", "32 7F" + "A1" * 127 + "32 00", (7, "20 80 81 00 30" + "A1" * 127 + "30", 1, 0)),
    # dropped types: lengths and sizes count
    ("dropped types", "", (7, "10 12 80 00", 0, 1), (8, "00 83 00 12 80 00 84 00 42 81 00 A1 03 7A 80 00", 2, 3)),
    ("dropped, left open, finished", "", (7, "50 12", 0, 0), (8, "80 82 00 80 00", 1, 1)),
    # an element thrown away: its length counts, and what would be its size field is not read
    ("thrown away", "32 00", (7, "A0 81 00 A1 30", 1, 0)), ("thrown away, size bytes", "", (7, "90 32 80 00", 0, 0)),
    ("thrown away, left open", "", (7, "C0 83 00 32 80 00", 1, 0), (8, "90 A1", 0, 0)),
    ("out of step", "32 00", (7, "50 32 81 00", 0, 0), (9, "A0 81 00 A1 30", 1, 0)),
    # left open: the length counts there; the size field where its OBU is finished, once, wherever its bytes came
    ("left open", "32 01 A1", (7, "40 83 00 32 81 00", 1, 0), (8, "90 A1", 0, 1)),
    ("over three packets", "32 02 A1 A2", (7, "50 32 82", 0, 0), (8, "D0 00 A1", 0, 0), (9, "90 A2", 0, 1)),
    ("over four packets, lengths padded", "36 08 01 A1 32 00", (7, "50 36", 0, 0), (8, "C0 81 00 08", 1, 0), (9, "D0 81", 0, 0),
     (10, "80 82 80 00 00 A1 81 00 30", 2, 1)),
    ("in the first of three, another behind it", "32 00 32 01 A1 32 00", (7, "60 83 00 32 80 00 32 81", 1, 1), (8, "D0 00", 0, 0),
     (9, "A0 01 A1 32 80 80 00", 0, 2)),
    ("never finished", "32 00", (7, "50 32 82 00", 0, 0), (8, "10 30", 0, 0)),
    # a refusal carries no count, and the same number can come again
    ("refused, then taken", "32 01 A1", (7, "50 32 81", 0, 0), (7, "90 00 A1", 14), (8, "80 81 00 00", 18), (8, "80 82 00 00 A1", 1, 1)),
    ("18", "", (7, "20 83 00 32 80 00 32", 18)), ("16", "", (7, "00 81 00 30 80", 16)), ("17", "", (7, "00 81 00 30 82 00 30", 17)),
]


class Test:
    """Counts rows and tells of those that do not hold."""

    def __init__(self):
        self.rows = self.failed = 0

    def same(self, what, got, want):
        self.rows += 1
        if got != want:
            self.failed += 1
            print("DOES NOT HOLD: %s: got %r, want %r" % (what, got, want))


def padded_field(value, used):
    """F6. A size field of this value in so many bytes, which may be more than it needs."""
    field = write_field(value)
    return bytes([byte | 128 for byte in field] + [128] * (used - len(field) - 1) + [0]) if used > len(field) else field


def test_fields(t):
    for field, want in [
        ("", [5, 0]), ("00", (0, 1, True)), ("7F", (127, 1, True)), ("80", [5, 0]), ("80 01", (128, 2, True)), ("AC 02", (300, 2, True)),
        ("80" * 7, [5, 0]), ("80" * 8, [6, 0]), ("80" * 8 + "00", [6, 0]), ("80" * 7 + "00", (0, 8, False)),
        ("FF FF FF FF 0F", (FIELD_VALUE, 5, True)), ("80 80 80 80 10", [6, 0]), ("FF FF FF FF 8F 80 80 00", (FIELD_VALUE, 8, False)),
        ("82 D8 02", (44_034, 3, True)), ("80 00", (0, 2, False)), ("00 00", (0, 1, True)), ("FF 00", (127, 2, False)),
        ("80 80 01", (16_384, 3, True)), ("80 81 00", (128, 3, False)), ("FF FF FF FF 8F 00", (FIELD_VALUE, 6, False)),
    ]:
        t.same("size field %s" % field, answer(read_field, bytes.fromhex(field)), want)
    for value in [0, 1, 127, 128, 300, 16_383, 16_384, 2_097_151, 2_097_152, UNIT_LIMIT, FIELD_VALUE]:
        field = write_field(value)
        t.same("written %d" % value, read_field(field + b"\xFF"), (value, field_size(value), True))
        for used in range(len(field) + 1, FIELD_BYTES + 1):
            t.same("%d in %d bytes" % (value, used), read_field(padded_field(value, used) + b"\xFF"), (value, used, False))
    # F6 as F4 would have it: fewer bytes would do
    for byte in range(128):
        sizes = [read_field(bytes([first, byte])) for first in range(256)]
        t.same("shortest before and with %02X" % byte, [size.shortest for size in sizes],
               [size.used == field_size(size.value) for size in sizes])
    t.same("300", write_field(300).hex(), "ac02")


def test_list(t):
    unit = bytes.fromhex("32 00 32 00 32 02 A1")
    for numbers, want in [(0, [8, 0]), (4, [8, 0]), (5, [8, 2]), (9, [8, 2]), (10, [7, 4]), (15, [7, 4])]:
        t.same("lent %d" % numbers, answer(parse_obus, unit, [9] * numbers), want)
    obus = [9] * 12
    t.same("answer", parse_obus(bytes.fromhex("12 00 36 08 01 C1"), obus), (1, 0))
    t.same("list, rest untouched", obus, [0x36, 8, 5, 1, 3] + [9] * 7)
    t.same("start of an empty payload", kept_obus(bytes.fromhex("36 08 80 00")), [Obu(0x36, 8, 4, 0, 2)])
    t.same("at the limit", kept_obus(b"\x30" + bytes(UNIT_LIMIT - 1)), [Obu(0x30, 0, 1, UNIT_LIMIT - 1, UNIT_LIMIT)])
    t.same("over the limit", answer(kept_obus, b"\x36" * (UNIT_LIMIT + 1)), [2, 0])
    for case, want in [
        ("2 5 0 0 32003200", "refused 8 2"), ("9 0 0 0 -", "obus 0 packets 0"), ("2 5 0 0 3200", "obus 1 50,0,2,0,1 packets 0"),
        ("3 0 0 0 12007A00", "obus 0 packets 0"), ("1048577 0 0 0 36", "refused 1 0"), ("1048576 0 0 0 36", "refused 3 0"),
        ("65534 0 0 0 36", "refused 3 0"), ("3 5 5 9 3200", "refused 9 0"), ("3 5 6 1 3200", "refused 10 0"),
        ("3 5 6 2 3200*2", "obus 1 50,0,2,0,1 packets 1 0,1,0,1,1,0 headers 10 payloads 1030"),
        ("3 5 11 6 3001*4", "refused 9 0"), ("3 5 12 2 3001*4", "refused 10 0"),
        ("3 5 12 3 3001*4", "obus 1 48,0,1,3,4 packets 2 0,1,0,2,2,0;0,1,2,2,2,3 headers 50,90 payloads 503001,900101"),
        # the first, the last of two is the longer one
        ("5 10 12 2 0A017F3200", "refused 10 0"), ("5 15 12 3 0A017F32003200", "refused 10 0"),
        ("5 15 12 4 0A017F32003200", "obus 3 10,0,2,1,2;50,0,5,0,1;50,0,7,0,1 packets 2 0,1,0,2,2,0;1,2,0,1,3,3 headers 10,20 "
         "payloads 10087F,20013030"),
    ]:
        t.same("vectors, %s" % case, vectors(case + "\n"), want + "\n")


def test_plan(t):
    for unit, mtu, want in UNIT_ROWS:
        t.same("unit %s, mtu %d" % (unit, mtu), shown(mtu, unit), want)
    for room, want in FRAGMENTS.items():
        t.same("largest fragment for room %d" % room, largest_fragment(room), want)
    fits = 0
    for room in range(2, 17_000):
        while fits + 1 + field_size(fits + 1) <= room:
            fits += 1
        t.same("largest fragment for room %d by counting" % room, largest_fragment(room), fits)
    # P16: none; one; behind an OBU taken out; in a new packet; of middle fragments; in a new packet for a fourth element
    for sizes, mtu, want in [([], 5, []), ([2], 5, [0]), ([2, 1], 5, [0, 3]), ([2, 1], 4, [0, 3]), ([4, 6], 3, [0, 3, 6, 9, 12]),
                             ([1, 1, 1, 7], 8, [0, 6, 13])]:
        t.same("starts for sizes %r, mtu %d" % (sizes, mtu), [packet.start for packet in plan_of(sizes, mtu)], want)
    unit = b"\x32\x7F" + bytes(127) + b"\x30\x00"
    t.same("mtu 132", [len(p) for p in payloads(unit, kept_obus(unit), plan_of([128, 2], 132))], [132, 2])
    # L2: an OBU that just goes in whole, and one that is cut
    for size, want in [(1_048_574, [(0, 1, 0, 1_048_574, 1_048_574, 0)]),
                       (1_048_575, [(0, 1, 0, 1_048_574, 1_048_574, 0), (0, 1, 1_048_574, 1, 1, 1_048_575)]),
                       (1_048_576, [(0, 1, 0, 1_048_575, 1_048_575, 0), (0, 1, 1_048_575, 1, 1, 1_048_576)])]:
        t.same("size %d at the largest mtu" % size, plan_of([size], 1_048_576), want)
    unit = b"\x30" + bytes(UNIT_LIMIT - 1)
    t.same("the largest payload", [len(p) for p in payloads(unit, kept_obus(unit), plan_of([UNIT_LIMIT], MTU_LIMIT))], [1_048_576, 2])
    unit = bytes.fromhex("32 01 A1") * 349_525 + b"\x30"
    t.same("most records", (len(unit), len(plan_of([o.size for o in kept_obus(unit)], 3))), (UNIT_LIMIT, 699_051))


def test_law(t):
    """P13 and P16 on random units."""
    rng = random.Random(1)
    for _ in range(3000):
        unit = b"".join(b"\x32" + write_field(n) + bytes(n) for n in
                        [rng.choice([0, 0, 1, 2, 3, 9, rng.randrange(150)]) for _ in range(rng.randrange(1, 9))])
        mtu = rng.choice([3, 4, 5, 6, 7, 8, rng.randrange(3, 200)])
        obus = kept_obus(unit)
        plan = plan_of([o.size for o in obus], mtu)
        made = payloads(unit, obus, plan)
        lengths = all(2 <= len(p) <= mtu and len(p) == packet.size + 1 for p, packet in zip(made, plan))
        joined = b"".join(b"".join(elements(p)) for p in made) == b"".join(sent(unit, o) for o in obus)
        starts = [packet.start for packet in plan] == [sum(map(len, made[:k])) for k in range(len(made))]
        t.same("law for %s, mtu %d" % (unit.hex(), mtu), (lengths, joined, starts), (True, True, True))


def test_vectors(t):
    """vectors_line says what plan call, writing call and header call leave in lent slices."""
    rng = random.Random(5)
    for _ in range(2000):
        unit = b"".join(bytes([rng.choice([0x0A, 0x12, 0x32])]) + write_field(n) + bytes([rng.choice([0, 8, 16])]) * n for n in
                        [rng.choice([0, 0, 1, 2, 5, rng.randrange(150)]) for _ in range(rng.randrange(7))])
        mtu = rng.choice([2, 3, 4, 7, 20, 150])
        space = [rng.choice([n, width * rng.randrange(8)]) for n, width in ((400, OBU_NUMBERS), (4800, PLAN_NUMBERS), (4000, 5))]
        obus, plan, out = [7] * space[0], [7] * space[1], bytearray(space[2])
        try:
            count, packets = plan_unit(mtu, unit, obus, plan)
            made = [bytes(out[:write_packet(mtu, unit, obus, plan, k, out)]) for k in range(packets)]
            obus, plan = obus[:OBU_NUMBERS * count], plan[:PLAN_NUMBERS * packets]
            rows = records(plan, Packet, PLAN_NUMBERS)
            want = "obus %s packets %s" % (records_text(records(obus, Obu, OBU_NUMBERS)), records_text(rows))
            if packets:
                want += " headers %s payloads %s" % (
                    ",".join("%02X" % get_aggregation_header(unit, obus, plan, k) for k in range(packets)),
                    ",".join(p.hex().upper() for p in made))
        except Refused as bad:
            want = "refused %d %d" % (bad.number, bad.offset)
        t.same("vectors_line for %s, mtu %d" % (unit.hex(), mtu), vectors_line(mtu, *space, unit), want)


PACKED = bytes.fromhex("0A 01 7F 32 00")                                 # at mtu 5 a packet of 3 bytes and one of 2
PACKED_LIST, PACKED_PLAN = [0x0A, 0, 2, 1, 2, 0x32, 0, 5, 0, 1], [0, 1, 0, 2, 2, 0, 1, 1, 0, 1, 1, 3]
GOOD, HUGE = (PACKED, PACKED_LIST, PACKED_PLAN), 2 ** 64 - 1


def test_left(t):
    """C5, C6, C9: what each refusal of the plan call leaves in the lent slices."""
    for mtu, list_numbers, plan_numbers, want in [
        (1_048_577, 10, 12, ([1, 0], False, False)), (5, 9, 12, ([8, 3], False, False)), (5, 10, 11, ([9, 0], True, False)),
        (5, 10, 12, ((2, 2), True, True)),
    ]:
        obus, plan = [7] * list_numbers, [7] * plan_numbers
        got = answer(plan_unit, mtu, PACKED, obus, plan)
        t.same("left by %r" % (want[0],), (got, obus, plan), (
            want[0], PACKED_LIST if want[1] else [7] * list_numbers, PACKED_PLAN if want[2] else [7] * plan_numbers))
    for mtu in (65_533, 65_534, 65_535, 65_536, 1_048_575, 1_048_576):
        obus, plan = [7] * 10, [7] * 12
        got = plan_unit(mtu, PACKED, obus, plan)
        t.same("left at mtu %d" % mtu, (got, obus, plan), ((2, 1), PACKED_LIST, [0, 2, 0, 1, 4, 0] + [7] * 6))


def writing(t, what, want, call, mtu, lent, *which):
    """A row of a writing call on unit, list and plan; behind which packets the bytes of the output.

    `want` is a refusal's number, its offset 0; number and offset; or what is written, at the front. Nothing else changes.
    """
    *which, space = which
    unit, *lists = lent
    given, out = [list(numbers) for numbers in lists], bytearray(b"\xEE" * space)
    got = answer(call, mtu, unit, *given, *which, out)
    want = [want, 0] if type(want) is int else want
    made = bytes.fromhex(want) if type(want) is str else b""
    t.same("%s, %s" % (call.__name__, what), (got, given, bytes(out)),
           (want if type(want) is list else len(made), lists, made + b"\xEE" * (space - len(made))))


def writing_one(t, what, want, mtu, lent, k, space):
    """The same row for packet k alone and for a run of one."""
    writing(t, what, want, write_packet, mtu, lent, k, space)
    writing(t, what, want, write_packets, mtu, lent, k, 1, space)


def test_writing(t):
    """C2, C7, R10, R11: which packet or run, and the space for it."""
    for k, want, size in ((0, "10 08 7F", 3), (1, "10 30", 2)):
        for space in (size, size + 4):
            writing_one(t, "packet %d into %d" % (k, space), want, 5, GOOD, k, space)
        for space in (0, size - 1):
            writing_one(t, "10 by packet %d alone, %d" % (k, space), 10, 5, GOOD, k, space)
    for k in (2, 3, HUGE):
        for space in (0, 9):
            writing_one(t, "11 before 10, packet %d into %d" % (k, space), 11, 5, GOOD, k, space)
    whole = "10 08 7F 10 30"
    for first, count, space, want in [
        (0, 2, 5, whole), (0, 2, 9, whole), (0, 2, 4, 10), (0, 2, 3, 10), (0, 2, 0, 10), (0, 3, 9, 11), (0, 3, 0, 11), (1, 2, 9, 11),
        (2, 1, 9, 11), (HUGE, 1, 9, 11), (HUGE, HUGE, 9, 11), (0, HUGE, 9, 11), (0, 0, 0, ""), (1, 0, 9, ""), (2, 0, 9, ""), (3, 0, 0, ""),
        (HUGE, 0, 0, ""),
    ]:
        writing(t, "%d from %d on into %d" % (count, first, space), want, write_packets, 5, GOOD, first, count, space)
    # 1 to 7 before 31, 11 and 10, also where no packet is asked for; 3 to 7 with their offset
    for what, want, mtu, unit in [
        ("1 before 3", 1, 1_048_577, b"\x36"), ("1 before 31", 1, 1_048_577, PACKED), ("2", 2, 5, bytes(UNIT_LIMIT + 1)),
        ("no 1", 3, 1_048_576, b"\x36"), ("no 1 at 65,534", 3, 65_534, b"\x36"),
        *(("%d" % number, [number, 5], 5, PACKED + bytes.fromhex(end))
          for number, end in ((3, "36"), (4, "32"), (5, "32 FF"), (6, "32 80 80 80 80 10"), (7, "32 01"))),
    ]:
        writing_one(t, what, want, mtu, (unit, [], []), 9, 0)
        writing(t, what + ", no packet", want, write_packets, mtu, (unit, [], []), 0, 0, 0)


def test_differ(t):
    """R31: lists of another mtu or unit, a number changed, shorter ones; before 11 and 10. What stands behind is not looked at."""
    for mtu in (3, 6, 65_533, 65_534, 1_048_576):
        writing_one(t, "31, a plan of mtu 5 at %d" % mtu, 31, mtu, GOOD, 0, 9)
    writing_one(t, "mtu 4 has the plan of mtu 5", "10 08 7F", 4, GOOD, 0, 9)
    for mtu in (65_533, 65_534, 1_048_576):
        writing_one(t, "one packet at mtu %d" % mtu, "20 02 08 7F 30", mtu, (*GOOD[:2], [0, 2, 0, 1, 4, 0]), 0, 9)
    writing_one(t, "31, another unit", 31, 5, (PACKED + b"\x32\x00", *GOOD[1:]), 0, 9)
    writing_one(t, "31, lists in each other's place", 31, 5, (PACKED, PACKED_PLAN, PACKED_LIST), 0, 9)
    for which, own in ((1, PACKED_LIST), (2, PACKED_PLAN)):
        def lent(numbers):
            return *GOOD[:which], numbers, *GOOD[which + 1:]
        for place, number in enumerate(own):
            for other in (number ^ 1, number ^ 1 << 31, number + 256):
                row = lent([*own[:place], other, *own[place + 1:]])
                writing_one(t, "31, list %d, number %d is %d" % (which, place, other), 31, 5, row, 0, 9)
            writing_one(t, "31, list %d of %d numbers, not 8 or 9" % (which, place), 31, 5, lent(own[:place]), 0, 9)
        writing_one(t, "31 before 11 and 10, list %d" % which, 31, 5, lent(own[:-1]), 9, 0)
        writing(t, "31, list %d, no packet" % which, 31, write_packets, 5, lent(own[:-1]), 0, 0, 0)
        for n in (1, 4, 5, 6, 12, 13):
            row = lent(own + [2 ** 32 - 1] * n)
            writing_one(t, "%d numbers behind list %d" % (n, which), "10 30", 5, row, 1, 2)
            writing_one(t, "11, %d numbers behind list %d" % (n, which), 11, 5, row, 2, 2)


def test_no_packets(t):
    """R11 without packets: an mtu below 3, nothing kept, no byte. Of the plan then nothing is looked at; of the list all that is due."""
    for mtu, unit, obus in [*((mtu, PACKED, PACKED_LIST) for mtu in (0, 1, 2)), (5, b"\x12\x00", []), (5, b"", []), (0, b"", [])]:
        for k in (0, 1, HUGE):
            writing_one(t, "11 without packets", 11, mtu, (unit, obus, []), k, 0)
            writing_one(t, "11 without packets, numbers behind", 11, mtu, (unit, obus + [9] * 5, PACKED_PLAN), k, 9)
            writing(t, "none of no packets", "", write_packets, mtu, (unit, obus, []), k, 0, 0)
    for mtu in (0, 2):
        writing_one(t, "31 at mtu %d" % mtu, 31, mtu, (PACKED, PACKED_LIST[:-1], []), 0, 9)


def test_apart(t):
    """Every packet alone, in any order, into an output that just holds it; runs of them; all of them: the payloads of the unit."""
    rng = random.Random(7)
    for _ in range(700):
        unit = b"".join(bytes([rng.choice([0x0A, 0x12, 0x32])]) + write_field(n) + bytes([rng.choice([0, 8, 16])]) * n for n in
                        [rng.choice([0, 0, 1, 2, 5, rng.randrange(40), 130]) for _ in range(rng.randrange(1, 7))])
        mtu = rng.choice([2, 3, 4, 5, 7, 20, 150])
        obus, plan, name = [9] * 32, [9] * 3000, "%s, mtu %d" % (unit.hex(), mtu)
        _, packets = plan_unit(mtu, unit, obus, plan)
        kept = kept_obus(unit)
        rows = plan_of([o.size for o in kept], mtu)
        want, alone, given = payloads(unit, kept, rows), {}, (mtu, unit, obus, plan)
        for k in rng.sample(range(packets), packets):
            alone[k] = written(write_packet, *given, k, rows[k].size + 1)
            t.same("10 for %d of %s" % (k, name), answer(write_packet, *given, k, bytearray(rows[k].size)), [10, 0])
        whole = written(write_packets, *given, 0, packets, sum(map(len, want)))
        t.same("alone, %s" % name, alone, dict(enumerate(want)))
        t.same("all, %s" % name, (whole, [whole[row.start:row.start + row.size + 1] for row in rows]), (b"".join(want), want))
        first = rng.randrange(packets + 1)
        part = want[first:first + rng.randrange(4)]
        size = sum(map(len, part))
        t.same("from %d on, %s" % (first, name), written(write_packets, *given, first, len(part), size), b"".join(part))
        if part:
            t.same("10 from %d on, %s" % (first, name), answer(write_packets, *given, first, len(part), bytearray(size - 1)), [10, 0])
        t.same("11 for %s" % name, (answer(write_packet, *given, packets, bytearray(999)),
                                    answer(write_packets, *given, first, packets - first + 1, bytearray(999))), ([11, 0], [11, 0]))


def test_header(t):
    unit, most = bytes.fromhex("0A 01 00 32 01 10"), 4_294_967_295
    obus = [0x0A, 0, 2, 1, 2, 0x32, 0, 5, 1, 2]
    for plan, k, want in [
        ([0, 1, 0, 2, 2, 0], 0, 0x18), ([0, 1, 0, 2, 2, 0], 1, [11, 0]), ([0, 0, 0, 2, 2, 0], 0, [11, 0]),
        ([1, 2, 0, 1, 1, 0], 0, [11, 0]), ([0, 3, 0, 1, 1, 0], 0, [11, 0]), ([0, 1, 0, 2, 2], 0, [11, 0]),
        ([1, 1, 0, 2, 2, 0], 0, 0x18), ([0, 1, 1, 0, 1, 0], 0, 0xD8), ([0, 2, 1, 2, 9, 0], 0, 0xA8),
        ([0, 2, 1, 1, 9, 0], 0, 0xE8), ([0, 1, most, most, 0, 0], 0, 0x98), ([most, most, 0, 0, 0, 0], 0, [11, 0]),
        ([0, 1, 0, 2, 2, 0, 1, 1, 0, 2, 2, 3], 1, 0x10), ([0, 1, 0, 2, 2, 0, 1, 1, 0, 2, 2, 99], 1, 0x10),
        # start and packet size: their sum and 1 is at the limit, or over it; of record k alone
        ([0, 1, 0, 2, 2, most - 3], 0, 0x18), ([0, 1, 0, 2, 2, most - 2], 0, [11, 0]),
        ([0, 1, 0, 2, most - 1, 0], 0, 0x18), ([0, 1, 0, 2, most, 0], 0, [11, 0]),
        ([0, 1, 0, 2, 0, most - 1], 0, 0x18), ([0, 1, 0, 2, 0, most], 0, [11, 0]), ([0, 1, 0, 2, most, most], 0, [11, 0]),
        ([0, 1, 0, 2, 2, most, 1, 1, 0, 2, 2, 3], 1, 0x10), ([0, 1, 0, 2, 2, 0, 1, 1, 0, 2, 2, most], 1, [11, 0]),
    ]:
        t.same("header of %d in %r" % (k, plan), answer(get_aggregation_header, unit, obus, plan, k), want)
    t.same("an unfinished OBU record", answer(get_aggregation_header, unit, obus[:9], [1, 1, 0, 1, 1, 0], 0), [11, 0])
    four = [0x32, 0, 0, 0, 1] * 4
    t.same("W of four", get_aggregation_header(b"", four, [0, 4, 0, 1, 8, 0], 0), 0)


def test_inside(t):
    """R11, H7: OBU records inside the unit and outside it, used by packet k or not."""
    most, plan = 4_294_967_295, [0, 1, 0, 2, 2, 0, 1, 1, 0, 2, 2, 3]
    good = [0x0A, 0, 2, 1, 2]
    for start, length, inside in [
        (5, 1, True), (6, 0, True), (0, 6, True), (5, 2, False), (6, 1, False), (7, 0, False), (0, 7, False),
        (most, 0, False), (0, most, False), (most, 1, False), (most, most, False),
    ]:
        for place, obus in enumerate(([0x32, 0, start, length, 2] + good, good + [0x32, 0, start, length, 2])):
            for k in (0, 1):
                t.same("header of %d, record %d from %d, %d bytes" % (k, place, start, length),
                       type(answer(get_aggregation_header, bytes(6), obus, plan, k)) is int, inside)
        behind = good + good + [0x32, 0, start, length, 2]
        t.same("a record behind, from %d, %d bytes" % (start, length),
               answer(get_aggregation_header, bytes(6), behind, plan, 0), 0x10 if inside else [11, 0])
        t.same("an unfinished one behind", answer(get_aggregation_header, bytes(6), behind[:-1], plan, 0), 0x10)
    t.same("no unit", answer(get_aggregation_header, b"", [0x32, 0, 0, 0, 1], [0, 1, 0, 1, 1, 0], 0), 0x10)
    t.same("no unit, a start", answer(get_aggregation_header, b"", [0x32, 0, 1, 0, 1], [0, 1, 0, 1, 1, 0], 0), [11, 0])
    t.same("a unit over its limit", answer(get_aggregation_header, bytes(UNIT_LIMIT + 2), [0x32, 0, UNIT_LIMIT + 1, 1, 2],
                                           [0, 1, 0, 2, 2, 0], 0), 0x10)


def test_new(t):
    """H5, H9: N on packet 0 alone, at any mtu; and from any records."""
    for text, want in NEW_ROWS:
        unit = bytes.fromhex(text)
        kept = kept_obus(unit)
        for mtu in (3, 4, 7, 20):
            made = payloads(unit, kept, plan_of([obu.size for obu in kept], mtu))
            t.same("N of %s, mtu %d" % (text, mtu), [data[0] >> 3 & 1 for data in made], [want] + [0] * (len(made) - 1))
    # above the low byte of header and extension; an extension byte with no extension bit; payloads out of order, or the same
    unit, plan = bytes.fromhex("0A 01 00 32 01 10"), [0, 1, 0, 2, 2, 0]
    for sequence, frame, want in [
        ((0x0A, 0, 2, 1, 2), (0x32, 0, 5, 1, 2), 0x18), ((0xF0A, 0, 2, 1, 2), (0xF32, 0, 5, 1, 2), 0x18),
        ((0x0A, 0, 2, 1, 2), (0x36, 0xF1F, 5, 1, 2), 0x18), ((0x0A, 0, 2, 1, 2), (0x36, 0xF20, 5, 1, 2), 0x10),
        ((0x0A, 0, 2, 1, 2), (0x32, 0x20, 5, 1, 2), 0x18), ((0x0A, 0, 2, 1, 2), (0x436, 0x20, 5, 1, 2), 0x10),
        ((0x0A, 0, 2, 1, 2), (0x432, 0x20, 5, 1, 2), 0x18), ((0x1000A, 0, 2, 1, 2), (0x32, 0, 5, 1, 2), 0x18),
        ((0x0A, 0, 0, 1, 2), (0x32, 0, 2, 1, 2), 0x18), ((0x0A, 0, 5, 1, 2), (0x32, 0, 2, 1, 2), 0x10),
        ((0x0A, 0, 5, 1, 2), (0x32, 0, 5, 1, 2), 0x18), ((0x0A, 0, 2, 1, 2), (0x32, 0, 6, 0, 2), 0x10),
        ((0x0A, 0, 6, 0, 2), (0x32, 0, 5, 1, 2), 0x10), ((0x0A, 0, 2, 1, 2), (0x12, 0, 5, 1, 2), 0x10),
    ]:
        t.same("N of %r, %r" % (sequence, frame), answer(get_aggregation_header, unit, [*sequence, *frame], plan, 0), want)


def test_elements(t):
    for data, want in ELEMENT_ROWS:
        got = answer(elements, bytes.fromhex(data))
        t.same("elements of %s" % data, got if got and type(got[0]) is int else [p.hex() for p in got], want)
    t.same("element 1", element(bytes.fromhex("30 01 30 02 31 32 33"), 1), b"12")
    t.same("no element 3", element(bytes.fromhex("30 01 30 02 31 32 33"), 3), b"")
    t.same("a later element is bad", element(bytes.fromhex("00 01 30 02 30"), 0), b"")
    t.same("empty payload", element(b"", 0), b"")
    for size in (65_533, 65_534, 65_536, 65_537, 1_048_576):
        t.same("payload of %d bytes" % size, len(element(b"\x10" + bytes(size - 1), 0)), size - 1)
    t.same("payload over its limit", element(b"\x10" + bytes(1_048_576), 0), b"")


def test_receiver(t):
    for obu, want in WIRE_ROWS:
        t.same("finished %s" % obu, answer(wire, bytes.fromhex(obu)), [18, 0] if want is None else bytes.fromhex(want))
    took = State(True, 41, 2)
    # what is wanted: a refusal; or what is handed out, the new state, the store, and what is lost: a fragment, an element
    for what, state, number, data, lent, want in [
        ("12 store", State(True, 0, 5), 1, "", (4, 9), 12),
        ("12 limit", State(True, 0, FRAGMENT_LIMIT + 1), 1, "", (FRAGMENT_LIMIT + 2, 9), 12),
        ("13 empty", FRESH, 0, "", (4, 9), 13),
        ("13 before 14", took, 41, "", (4, 9), 13),
        ("13 over", FRESH, 0, "10" + "30" * 1_048_576, (4, 9), 13),
        ("13 before 14, over", took, 41, "10" + "30" * 1_048_576, (4, 9), 13),
        ("no 13, so 20", FRESH, 0, "10" + "30" * 1_048_575, (4, 9), 20),
        ("14 same", took, 41, "88", (4, 9), 14),
        ("14 half way", took, 41 + 32_768, "10 30", (4, 9), 14),
        ("ahead", took, 41 + 32_767, "10 30", (4, 9), ("3200", State(True, 41 + 32_767, 0), "A1A2A3A4", "F")),
        ("15", took, 42, "88", (4, 9), 15),
        ("16", took, 42, "20", (4, 9), 16),
        ("17", took, 42, "10", (4, 9), 17),
        ("18", FRESH, 0, "10 12", (4, 9), 18),
        ("18 before 19", FRESH, 0, "60 01 12 30 31 32 33 34", (4, 9), 18),
        ("19 store", FRESH, 0, "50 30 31 32 33 34", (4, 0), 19),
        ("19 before 20", FRESH, 0, "60 01 30 30 31 32 33 34", (4, 0), 19),
        ("20", FRESH, 0, "10 30", (4, 1), 20),
        ("thrown away, unchecked", FRESH, 0, "90 34", (4, 9), ("", State(True, 0, 0), "A1A2A3A4", "E")),
        ("thrown away, not kept open", FRESH, 7, "D0 34", (4, 9), ("", State(True, 7, 0), "A1A2A3A4", "E")),
        ("left open", FRESH, 7, "50 30", (4, 9), ("", State(True, 7, 1), "30A2A3A4", "")),
        ("dropped type left open", FRESH, 7, "50 12", (4, 9), ("", State(True, 7, 1), "12A2A3A4", "")),
        ("joined", took, 42, "90 30", (4, 9), ("A302A230", State(True, 42, 0), "A1A2A3A4", "")),
        ("joined and left open", took, 42, "D0 30", (4, 9), ("", State(True, 42, 3), "A1A230A4", "")),
        ("not in step", took, 43, "90 30", (4, 9), ("", State(True, 43, 0), "A1A2A3A4", "FE")),
        ("not in step, left open", took, 43, "E0 01 30 32", (4, 9), ("", State(True, 43, 1), "32A2A3A4", "FE")),
        ("Z clear", took, 42, "10 30", (4, 9), ("3200", State(True, 42, 0), "A1A2A3A4", "F")),
        ("Z clear, left open", took, 42, "50 30", (4, 9), ("", State(True, 42, 1), "30A2A3A4", "F")),
        ("in step, nothing open", State(True, 41, 0), 42, "90 30", (4, 9), ("", State(True, 42, 0), "A1A2A3A4", "E")),
        ("not in step, nothing open", State(True, 41, 0), 43, "10 30", (4, 9), ("3200", State(True, 43, 0), "A1A2A3A4", "")),
        ("number wraps", State(True, 65_535, 2), 0, "90 30", (4, 9), ("A302A230", State(True, 0, 0), "A1A2A3A4", "")),
        ("not begun", State(False, 41, 2), 42, "90 30", (4, 9), ("", State(True, 42, 0), "A1A2A3A4", "FE")),
        ("reserved bits", FRESH, 0, "17 B1", (4, 9), ("B300", State(True, 0, 0), "A1A2A3A4", "")),
    ]:
        store, out = bytearray(b"\xA1\xA2\xA3\xA4" + bytes(lent[0] - 4)), bytearray(b"\xEE" * lent[1])
        before = bytes(store), bytes(out)
        got = answer(receive, state, number, bytes.fromhex(data), store, out)
        if type(want) is int:
            t.same("receiver %s" % what, (got, bytes(store), bytes(out)), ([want, 0], *before))
        else:
            handed = bytes.fromhex(want[0])
            t.same("receiver %s" % what, (got, store.hex().upper(), bytes(out)),
                   ((want[1], len(handed), (0, 0), "F" in want[3], "E" in want[3]), want[2],
                    handed + b"\xEE" * (lent[1] - len(handed))))
    for size in (65_533, 65_534, 65_537, 1_048_576):
        out, want = bytearray(size + 3), b"\x32" + write_field(size - 2) + b"\xA5" * (size - 2)
        got = receive(FRESH, 7, b"\x10\x30" + b"\xA5" * (size - 2), bytearray(), out)
        t.same("payload of %d bytes" % size, (got, out[:got.bytes]), ((State(True, 7, 0), len(want), (0, 0), False, False), want))
    got = receive(State(True, 0, FRAGMENT_LIMIT - 1), 1, b"\xD0\x30", bytearray(FRAGMENT_LIMIT + 1), bytearray())
    t.same("open fragment at its limit", got, (State(True, 1, FRAGMENT_LIMIT), 0, (0, 0), False, False))
    store, out = bytearray(9), bytearray(9)
    first = receive(FRESH, 41, bytes.fromhex("50 30 A1"), store, out)
    other = receive(first.state, 42, bytes.fromhex("90 B2"), store, out)
    t.same("41 of one train, 42 of another", out[:other.bytes].hex(), "3202a1b2")
    t.same("19 limit", answer(receive, State(True, 0, FRAGMENT_LIMIT), 1, b"\xD0\x30", bytearray(FRAGMENT_LIMIT + 1),
                              bytearray()), [19, 0])


def test_padded(t):
    """F6, O8, V18: padded fields of units and of packets."""
    for text, want in PADDED_UNITS:
        t.same("padded in %s" % text[:40], answer(parse_obus, bytes.fromhex(text), [9] * 30), want)
    t.same("8 before a count", answer(parse_obus, bytes.fromhex("32 80 00 32 80 00"), [9] * 5), [8, 3])
    for what, handed, *packets in PADDED_PACKETS:
        state, store, came = FRESH, bytearray(16), b""
        for number, data, *want in packets:
            out = bytearray(1000)
            got = answer(receive, state, number, bytes.fromhex(data), store, out)
            t.same("padded, %s, %d" % (what, number), list(got.padded) if type(got) is Taken else got[:1], want)
            if type(got) is Taken:
                state, came = got.state, came + out[:got.bytes]
        t.same("handed out, %s" % what, came.hex(), bytes.fromhex(handed).hex())


def random_field(rng, value):
    """A size field of any length, and whether it is padded; worked out from its length."""
    used = rng.randrange(field_size(value), FIELD_BYTES + 1) if rng.random() < 0.5 else field_size(value)
    return padded_field(value, used), used > field_size(value)


def test_padded_runs(t):
    """V18 on random runs of another sender's packets: each has its padded lengths; a size counts in the last packet of its OBU."""
    rng = random.Random(9)
    for run in range(400):
        pieces, packets = [], []                    # of an OBU its number, where the piece stands in it, its bytes; elements of packets
        padded = []                                 # whether the OBU's size field is
        for k in range(rng.randrange(1, 9)):
            length = rng.choice([0, 1, 3, 9])
            field, more = random_field(rng, length)
            obu = bytes([rng.choice([0x12, 0x32, 0x7A])]) + field + bytes(length)
            cuts = sorted({0, len(obu), *(rng.randrange(len(obu)) for _ in range(rng.randrange(4)))})
            pieces += [(k, a, b == len(obu), obu[a:b]) for a, b in zip(cuts, cuts[1:])]
            padded.append(more)
        while pieces:
            n = 1
            while n < len(pieces) and pieces[n - 1][2] and rng.random() < 0.6:      # an element that goes on is the packet's last
                n += 1
            packets, pieces = packets + [pieces[:n]], pieces[n:]
        came = [k for k in range(len(packets)) if rng.random() > 0.15]
        state, store, out = FRESH, bytearray(99), bytearray(999)
        for k in came:
            here, w, lengths = packets[k], len(packets[k]) if len(packets[k]) < 4 and rng.random() < 0.5 else 0, 0
            data = bytearray([128 * (here[0][1] > 0) + 64 * (not here[-1][2]) + 16 * w])
            for place, (_, _, _, part) in enumerate(here):
                if w == 0 or place < w - 1:
                    field, more = random_field(rng, len(part))
                    data, lengths = data + field, lengths + more
                data += part
            finished = {obu for obu, _, last, _ in here if last}
            theirs = {obu: [j for j, elements in enumerate(packets) if any(e[0] == obu for e in elements)] for obu in finished}
            sizes = sum(padded[obu] for obu in finished if set(theirs[obu]) <= set(came))
            got = receive(state, k, bytes(data), store, out)
            t.same("padded, run %d, packet %d, %s" % (run, k, data.hex()), got.padded, (lengths, sizes))
            state = got.state


def test_delivery(t):
    """D3 on random runs: what comes out is the OBUs all of whose packets are timely."""
    rng = random.Random(3)
    for run in range(400):
        number, packets, obus, largest, mtus = rng.randrange(65_536), [], [], 0, []
        for _ in range(rng.randrange(1, 6)):
            unit = b"".join(bytes([rng.choice([0x0A, 0x12, 0x32, 0xB3, 0x7A])]) + write_field(n) + bytes([run % 256]) * n
                            for n in [rng.choice([0, 1, 2, 5, 30, 140]) for _ in range(rng.randrange(7))])
            mtu = rng.choice([3, 4, 5, 8, 20, 140])
            kept = kept_obus(unit)
            plan = plan_of([o.size for o in kept], mtu)
            for i, obu in enumerate(kept):
                theirs = [len(packets) + k for k, p in enumerate(plan) if p.first <= i < p.first + p.count]
                obus.append((theirs, wire(sent(unit, obu))))
                largest = max(largest, obu.size)
            packets += payloads(unit, kept, plan)
            mtus.append(mtu)
        arrivals = [k for k in range(len(packets)) if rng.random() > 0.1]
        for _ in range(len(arrivals) // 8):
            arrivals.insert(rng.randrange(len(arrivals)), rng.choice(arrivals))
        timely = {k for k in arrivals if all(j <= k for j in arrivals[:arrivals.index(k)])}
        state, store, came, refused = FRESH, bytearray(largest), bytearray(), 0
        for k in arrivals:
            out = bytearray(largest + 4 * max(mtus))
            try:
                state, count, padded, _, _ = receive(state, (number + k) % 65_536, packets[k], store, out)
                t.same("run %d, nothing padded" % run, padded, (0, 0))
                came += out[:count]
            except Refused as bad:
                refused += 1
                t.same("run %d, only 14" % run, bad.number, 14)
        t.same("run %d" % run, bytes(came), b"".join(w for theirs, w in obus if timely.issuperset(theirs)))
        t.same("run %d, refusals" % run, refused, len(arrivals) - len(timely))


CUT, SHORT = "22 (the train ends inside a record)", "23 (a record's length is below 3)"
OVER, NO_ROOM = "13 (the payload is empty or over its limit)", "20 (the output is too short for the OBUs)"
LOST = "lost: %d packets passed over, %d open fragments, %d leading elements"


def test_programs(t):
    head = bytes.fromhex("01 00 05 00 00 00 05")
    example = head + bytes.fromhex("0A 01 7F 32 00")
    t.same("planlist", planlist(example), "obus 2\npackets 2\n0 0 1 0 2 2 10 0\n1 1 1 0 1 1 10 3\n")
    for what, data in [("empty", b""), ("head cut", head[:6]), ("less", example[:-1]), ("more", example + b"\0"),
                       ("version", b"\x02" + example[1:]), ("version, mtu of 32 bits", b"\x02\x00\x00" + example[1:]),
                       ("store", b"\x01\x00\x05\x00\x00\x80\x01" + bytes(32_769))]:
        t.same("planlist, %s" % what, planlist(data), "bad input\n")
    t.same("planlist, no unit", planlist(bytes.fromhex("01 00 05 00 00 00 00")), "obus 0\npackets 0\n")
    t.same("planlist, refused", planlist(bytes.fromhex("01 00 05 00 00 00 03 32 02 A1")), "refused 7 0\n")
    for mtu in (b"\xFF\xFD", b"\xFF\xFE", b"\xFF\xFF"):
        t.same("planlist, mtu %s" % mtu.hex(), planlist(b"\x01" + mtu + example[3:]), "obus 2\npackets 1\n0 0 2 0 1 4 20 0\n")
    t.same("planlist, full store", planlist(b"\x01\xFF\xFD\x00\x00\x80\x00" + b"\x30" + bytes(32_767)),
           "obus 1\npackets 1\n0 0 1 0 32768 32768 10 0\n")
    t.same("planlist, 512 OBUs", planlist(b"\x01\xFF\xFD\x00\x00\x04\x00" + b"\x32\x00" * 512),
           "obus 512\npackets 1\n0 0 512 0 1 1024 00 0\n")
    t.same("planlist, 513 OBUs", planlist(b"\x01\xFF\xFD\x00\x00\x04\x02" + b"\x32\x00" * 513), "refused 8 1024\n")
    t.same("planlist, 513 packets", planlist(b"\x01\x00\x03\x00\x00\x04\x02" + b"\x30" + bytes(1025)), "refused 9 0\n")
    units = bytes.fromhex("00 00 00 05 0A 01 7F 32 00") + bytes(4) + bytes.fromhex("00 00 00 01 30")
    train = bytes.fromhex("01 0005FFFF10087F 000400001030 000400011030")
    no_head = (b"", b"input: no head\n")
    for what, data, want in [
        ("whole", bytes.fromhex("01 00 05 FF FF") + units, (train, b"")),
        ("head alone", bytes.fromhex("01 00 05 FF FF"), (b"\x01", b"")),
        ("empty", b"", no_head), ("head cut", bytes.fromhex("01 00 05 FF"), no_head),
        ("version 0", bytes.fromhex("00 00 05 FF FF"), no_head), ("version 3", bytes.fromhex("03 00 00 00 05 FF FF"), no_head),
        ("cut", bytes.fromhex("01 00 05 FF FF") + units[:-1], (train[:-6], b"unit 2: cut\n")),
        ("length cut", bytes.fromhex("01 00 05 FF FF") + units[:-2], (train[:-6], b"unit 2: cut\n")),
        ("store", bytes.fromhex("01 FF FD 00 00 00 00 80 01") + b"\x30" * 32_769, (b"\x01", b"unit 0: cut\n")),
        ("refused", bytes.fromhex("01 00 05 00 00 00 00 00 01 32") + units,
         (b"\x01", b"unit 0: 4 (an OBU's size field is missing)\n")),
    ]:
        t.same("pack, %s" % what, outputs("pack", data), want)
        t.same("padded says what pack says, %s" % what, outputs("padded", data)[1], want[1])
    t.same("unpack", outputs("unpack", train), (bytes.fromhex("0A 01 7F 32 00 32 00"), b""))
    for what, file, written, *said in [
        ("empty", "", "", "train: 21 (no train of a known version)"),
        ("version 0", "00", "", "train: 21 (no train of a known version)"),
        ("version 3", "03 00000004 0000 1030", "", "train: 21 (no train of a known version)"),
        ("nothing", "01", ""),
        ("length cut", "01 00", "", "record 0: " + CUT),
        ("record cut", "01 0004 0000 10", "", "record 0: " + CUT),
        ("length 2", "01 0002", "", "record 0: " + SHORT),
        ("length 0 alone", "01 0000", "", "record 0: " + SHORT),
        ("shortest record", "01 0003 0000 10", "", "record 0: 17 (an element is empty, missing or past the end)", LOST % (1, 0, 0)),
        ("a repeat passed over", "01 00040007 1030 00040007 1030 00040008 1030", "3200 3200",
         "record 1: 14 (the number is not ahead)", LOST % (1, 0, 0)),
        ("before the stop", "01 00040007 1030 0001", "3200", "record 1: " + SHORT),
        ("a fragment still open", "01 00040007 5030", "", LOST % (0, 1, 0)),
        ("a fragment open at the stop", "01 00040007 5030 00", "", "record 1: " + CUT, LOST % (0, 1, 0)),
        ("a packet lost", "01 00040007 5030 00040009 9030 0004000A 1030", "3200", LOST % (0, 1, 1)),
        ("Z clear in step", "01 00040007 5030 00040008 1030", "3200", LOST % (0, 1, 0)),
        ("no beginning", "01 00040007 9030 00040008 D030 00040009 9030", "", LOST % (0, 0, 3)),
        ("refused in step, then joined", "01 00040007 5030 00040008 98A1 00040008 90A1", "3201A1",
         "record 1: 15 (N and Z are both set)", LOST % (1, 0, 0)),
        ("all three, and the stop", "01 00040007 5030 00040007 5030 00040009 9030 0004000A 5030 0002", "",
         "record 1: 14 (the number is not ahead)", "record 4: " + SHORT, LOST % (1, 2, 1)),
    ]:
        t.same("unpack, %s" % what, outputs("unpack", bytes.fromhex(file)),
               (bytes.fromhex(written), "".join(line + "\n" for line in said).encode()))
    two = bytes.fromhex("00 00 00 28") + b"\x32\x26" + bytes(38) + bytes.fromhex("00 00 00 03 36 08 00")
    t.same("unpack after pack", outputs("unpack", outputs("pack", bytes.fromhex("01 00 09 FF FE") + two)[0]),
           (b"\x32\x26" + bytes(38) + bytes.fromhex("36 08 00"), b""))
    t.same("words of each refusal", (sorted(WORDS), len(set(WORDS.values()))), ([*range(1, 24), 31], 24))


def test_padded_program(t):
    """G17: a line for each unit that `pack` packs, one without packets too, up to where it stops."""
    def file(*units, mtu=5, version=1):
        return pack_head(version, mtu) + b"".join(len(unit).to_bytes(4, "big") + unit for unit in map(bytes.fromhex, units))
    two, none, dropped = "32 80 00 12 81 00 01", "0A 01 7F 32 00", "12 80 80 00"
    over = b"unit 0: 1 (the mtu is over its limit)\n"
    for what, data, want in [
        ("units", file(two, none, dropped, "", two), (b"0 2\n1 0\n2 1\n3 0\n4 2\n", b"")),
        ("version 2", file(two, "", version=2, mtu=1_048_576), (b"0 2\n1 0\n", b"")),
        ("mtu 2, no packets", file(two, mtu=2), (b"0 2\n", b"")), ("mtu over its limit", file(two, version=2, mtu=1_048_577), (b"", over)),
        ("nothing", file(), (b"", b"")), ("empty", b"", (b"", b"input: no head\n")),
        ("head cut", file()[:-1], (b"", b"input: no head\n")), ("version 3", b"\3" + file(two)[1:], (b"", b"input: no head\n")),
        ("cut", file(two, two)[:-1], (b"0 2\n", b"unit 1: cut\n")), ("length cut", file(two) + bytes(3), (b"0 2\n", b"unit 1: cut\n")),
        ("store", file(two) + (STORE_BYTES + 1).to_bytes(4, "big") + b"\x30" * (STORE_BYTES + 1), (b"0 2\n", b"unit 1: cut\n")),
        ("refused", file(two, two + "32", two), (b"0 2\n", b"unit 1: 4 (an OBU's size field is missing)\n")),
        ("513 OBUs", file("32 80 00" * 512, "32 80 00" * 513), (b"0 512\n", b"unit 1: 8 (the OBU list is full)\n")),
        ("513 packets", file("32 FF 87 00" + "A1" * 1023, "32 80 88 00" + "A1" * 1024, mtu=3),
         (b"0 1\n", b"unit 1: 9 (the plan list is too short)\n")),
    ]:
        t.same("padded, %s" % what, outputs("padded", data), want)
        t.same("pack says so too, %s" % what, outputs("pack", data)[1], want[1])


def pack_head(version, mtu):
    """A head of pack's input of this version, the first number being 65,535."""
    return bytes([version]) + mtu.to_bytes(MTU_BYTES[version], "big") + b"\xFF\xFF"


def test_pack_versions(t):
    """G2, G3, G6, L18: both versions of pack's input, and the version of the train, which goes by the mtu."""
    unit = bytes.fromhex("00 00 00 05 0A 01 7F 32 00 00 00 00 01 30")
    small, short, long = (bytes.fromhex(text) for text in (
        "01 0005FFFF10087F 000400001030 000400011030", "01 0007FFFF2002087F30 000400001030",
        "02 00000007FFFF2002087F30 0000000400001030"))
    over = b"unit 0: 1 (the mtu is over its limit)\n"
    for version, mtu, want in [
        (1, 5, (small, b"")), (2, 5, (small, b"")), (1, 2, (b"\x01", b"")), (2, 2, (b"\x01", b"")),
        (1, 65_533, (short, b"")), (2, 65_533, (short, b"")), (1, 65_534, (long, b"")), (2, 65_534, (long, b"")),
        (1, 65_535, (long, b"")), (2, 65_535, (long, b"")), (2, 65_536, (long, b"")), (2, 1_048_576, (long, b"")),
        (2, 1_048_577, (b"\x02", over)), (2, 4_294_967_295, (b"\x02", over)),
    ]:
        t.same("pack, version %d, mtu %d" % (version, mtu), outputs("pack", pack_head(version, mtu) + unit), want)
        t.same("the same, head alone", outputs("pack", pack_head(version, mtu)), (want[0][:1], b""))
        t.same("padded, version %d, mtu %d" % (version, mtu), outputs("padded", pack_head(version, mtu) + unit),
               (b"" if want[1] else b"0 0\n1 0\n", want[1]))
    for n in range(7):
        t.same("pack, version 2, %d bytes" % n, outputs("pack", pack_head(2, 1_048_576)[:n]), (b"", b"input: no head\n"))
    # an OBU that needs a record of version 2 does not fit the unit store: the largest one there is
    most = b"\x32" + write_field(32_764) + b"\xA5" * 32_764
    for mtu, head in ((65_533, "01 8000FFFF"), (65_534, "02 00008000FFFF")):
        t.same("pack, the longest payload at mtu %d" % mtu, outputs("pack", pack_head(2, mtu) + b"\x00\x00\x80\x00" + most),
               (bytes.fromhex(head) + b"\x10\x30" + b"\xA5" * 32_764, b""))


def test_train_versions(t):
    """T1 to T3, C4, L11: trains of version 2 beside the same ones of version 1, cut everywhere."""
    packets = [(65_535, "5030A1"), (0, "90A2"), (0, "1030"), (2, "1030")]
    handed, said = bytes.fromhex("3202A1A2 3200"), ["record 2: 14 (the number is not ahead)", LOST % (1, 0, 0)]
    for version, width in WIDTHS.items():
        file = bytes([version]) + b"".join(train_record(n, bytes.fromhex(data), version) for n, data in packets)
        t.same("version %d" % version, outputs("unpack", file), (handed, "".join(line + "\n" for line in said).encode()))
        first = train_record(65_535, b"\x10\x30", version)
        for n in range(1, len(first)):
            t.same("version %d, %d bytes of a record" % (version, n), outputs("unpack", bytes([version]) + first + first[:n]),
                   (b"\x32\x00", ("record 1: %s\n" % CUT).encode()))
        for length in (0, 1, 2):
            for behind in (b"", b"\x00", bytes(2 + length), first):
                t.same("version %d, length %d" % (version, length), outputs(
                    "unpack", bytes([version]) + first + length.to_bytes(width, "big") + behind),
                    (b"\x32\x00", ("record 1: %s\n" % SHORT).encode()))
    for what, file, written, *said in [
        ("nothing", "02", ""),
        ("least length", "02 00000003 0000 10", "", "record 0: 17 (an element is empty, missing or past the end)", LOST % (1, 0, 0)),
        ("high bytes of a length", "02 01000004 0000 1030", "", "record 0: " + CUT),
        ("greatest length", "02 FFFFFFFF 0000 1030", "", "record 0: " + CUT),
        ("least length of version 1 read as version 2", "02 0003 0000 10", "", "record 0: " + CUT),
        ("version 2 read as version 1", "01 00000004 0000 1030", "", "record 0: " + SHORT),
    ]:
        t.same("unpack, version 2, %s" % what, outputs("unpack", bytes.fromhex(file)),
               (bytes.fromhex(written), "".join(line + "\n" for line in said).encode()))


def test_payload_store(t):
    """G5, G16, L14: payloads that just fit the store of `unpack`; a longer one is passed over, and the state stays."""
    def file(*packets):
        return b"\x02" + b"".join(train_record(number, data, 2) for number, data in packets)
    opened, after, good = (7, b"\x50\x30\xA1"), (9, b"\x90\xA3"), (10, b"\x10\x30")
    for size in (65_533, 65_534, 65_535, 65_536):
        body = b"\xA5" * (size - 5)
        whole = b"\x10\x32" + write_field(len(body)) + body
        t.same("an OBU in %d bytes" % size, outputs("unpack", file((7, whole), (8, b"\x10\x30"))), (whole[1:] + b"\x32\x00", b""))
        t.same("an end of %d bytes" % size, outputs("unpack", file((7, b"\x90" + bytes(size - 1)), (8, b"\x10\x30"))),
               (b"\x32\x00", (LOST % (0, 0, 1) + "\n").encode()))
        obu, fits = b"\x30" + body + b"\xA5" * 3, size + 2 <= OUTPUT_BYTES     # with a size field it has three bytes more: 20, not 13
        t.same("an OBU without a size field in %d bytes" % size, outputs("unpack", file((7, b"\x10" + obu), good)), (
            (wire(obu) if fits else b"") + b"\x32\x00", b"" if fits else ("record 0: %s\n%s\n" % (NO_ROOM, LOST % (1, 0, 0))).encode()))
    for size in (65_537, 65_538, 200_000, 1_048_576, 1_048_577):
        long = (8, b"\x90" + b"\xA2" * (size - 1))
        for what, packets, written, *said in [
            ("alone", [long], "", "record 0: " + OVER, LOST % (1, 0, 0)),
            ("then out of step", [opened, long, after, good], "3200", "record 1: " + OVER, LOST % (1, 1, 1)),
            ("its number comes again", [opened, long, (8, b"\x90\xA2")], "3202A1A2", "record 1: " + OVER, LOST % (1, 0, 0)),
            ("13 before 14", [good, long, (11, b"\x10\x30")], "32003200", "record 1: " + OVER, LOST % (1, 0, 0)),
            ("a fragment stays open", [opened, long], "", "record 1: " + OVER, LOST % (1, 1, 0)),
        ]:
            t.same("unpack, %d bytes, %s" % (size, what), outputs("unpack", file(*packets)),
                   (bytes.fromhex(written), "".join(line + "\n" for line in said).encode()))
        whole = file(opened, long)
        for cut in (1, 2, size - 65_536, size - 1, size, size + 1, size + 2, size + 5):
            t.same("unpack, %d bytes, %d short" % (size, cut), outputs("unpack", whole[:-cut]),
                   (b"", ("record 1: %s\n%s\n" % (CUT, LOST % (0, 1, 0))).encode()))


def test_failures(t):
    """G14: a read that fails behind so many bytes, and a write that fails after so many; each ends the run."""
    listed, units = bytes.fromhex("01 0005 00000005 0A017F3200"), bytes.fromhex("01 0005 FFFF 00000000 00000005 0A017F3200")
    file = bytes.fromhex("01 00040007 5030 00040007 5030 00040008 9030 00040009 1030")
    behind = b"record 1: 14 (the number is not ahead)\n"
    for name, data, want in [
        ("unpack", file[:0], b"train: read failed\n"), ("unpack", file[:1], b"record 0: read failed\n"),
        ("unpack", file[:2], b"record 0: read failed\n"), ("unpack", file[:6], b"record 0: read failed\n"),
        ("unpack", file[:7], b"record 1: read failed\n"), ("unpack", file[:13], behind + b"record 2: read failed\n"),
        ("unpack", b"\3", b"train: 21 (no train of a known version)\n"), ("unpack", b"\2", b"record 0: read failed\n"),
        ("unpack", file[:5], b"record 0: read failed\n"), ("unpack", b"\1\0\2", b"record 0: read failed\n"),
        ("unpack", b"\1\0\2\0\0", b"record 0: 23 (a record's length is below 3)\n"),
        ("unpack", b"\2\0\0\0\2", b"record 0: read failed\n"),
        ("unpack", b"\2\0\0\0\2\0\0", b"record 0: 23 (a record's length is below 3)\n"),
        ("unpack", b"\2\0\1\0\3\0\0" + bytes(65_536), b"record 0: read failed\n"),
        ("unpack", b"\2\0\1\0\3\0\0" + bytes(65_537), b"record 0: 13 (the payload is empty or over its limit)\nrecord 1: read failed\n"),
        ("pack", units[:0], b"input: read failed\n"), ("pack", b"\2", b"input: read failed\n"),
        ("pack", b"\2\0\0\0\5", b"input: read failed\n"), ("pack", b"\2\0\0\0\5\0", b"input: read failed\n"),
        ("pack", b"\2\0\0\0\5\0\0", b"\1unit 0: read failed\n"), ("pack", b"\2\0\1\0\0\0\0", b"\2unit 0: read failed\n"),
        ("pack", b"\3", b"input: no head\n"),
        ("pack", units[:4], b"input: read failed\n"), ("pack", units[:5], b"\1unit 0: read failed\n"),
        ("pack", units[:9], b"\1unit 1: read failed\n"), ("pack", units[:17], b"\1unit 1: read failed\n"),
        ("padded", units[:0], b"input: read failed\n"), ("padded", b"\2\0\0\0\5\0", b"input: read failed\n"),
        ("padded", b"\3", b"input: no head\n"), ("padded", units[:5], b"unit 0: read failed\n"),
        ("padded", units[:8], b"unit 0: read failed\n"), ("padded", units[:9], b"0 0\nunit 1: read failed\n"),
        ("padded", units[:17], b"0 0\nunit 1: read failed\n"), ("padded", units, b"0 0\n1 0\nunit 2: read failed\n"),
        ("planlist", listed[:0], b"input: read failed\n"), ("planlist", listed[:6], b"input: read failed\n"),
        ("planlist", listed[:7], b"unit 0: read failed\n"), ("planlist", listed[:11], b"unit 0: read failed\n"),
        ("planlist", listed, b"unit 0: read failed\n"), ("planlist", listed + b"\0", b"bad input\n"),
        ("planlist", b"\2" + listed[1:7], b"bad input\n"),
    ]:
        t.same("%s, reading fails behind %s" % (name, data.hex()), b"".join(map(step_bytes, run(name, data, True))), want)
    joined, rows = bytes.fromhex("320130"), [b"obus 2\npackets 2\n", b"0 0 1 0 2 2 10 0\n", b"1 1 1 0 1 1 10 3\n"]
    first = bytes.fromhex("0005FFFF10087F")
    for name, data, writes, want in [
        ("unpack", file, 0, behind + b"record 2: write failed\n"),
        ("unpack", file, 1, behind + joined + b"record 3: write failed\n"),
        ("unpack", file[:7], 0, b"lost: 0 packets passed over, 1 open fragments, 0 leading elements\n"),
        ("pack", units, 0, b"train: write failed\n"), ("pack", units, 1, b"\1unit 1: write failed\n"),
        ("pack", units, 2, b"\1" + first + b"unit 1: write failed\n"), ("pack", units[:9], 1, b"\1"),
        ("pack", units[:4], 0, b"input: no head\n"),
        ("padded", units, 0, b"unit 0: write failed\n"), ("padded", units, 1, b"0 0\nunit 1: write failed\n"),
        ("padded", units[:5], 0, b""), ("padded", units[:4], 0, b"input: no head\n"), ("padded", units[:6], 0, b"unit 0: cut\n"),
        ("planlist", listed, 0, b"unit 0: write failed\n"), ("planlist", listed, 2, rows[0] + rows[1] + b"unit 0: write failed\n"),
        ("planlist", listed, 3, b"".join(rows)), ("planlist", b"", 0, b"unit 0: write failed\n"),
    ]:
        t.same("%s, writing fails after %d, %s" % (name, writes, data.hex()),
               b"".join(map(step_bytes, run(name, data, writes=writes))), want)
    t.same("a failed write before a failed read", list(run("pack", units[:5], True, 0)), [Said("train: write failed")])


def self_test():
    t = Test()
    for test in (test_fields, test_list, test_plan, test_law, test_vectors, test_left, test_writing, test_differ, test_no_packets,
                 test_apart, test_header, test_inside, test_new, test_elements, test_receiver, test_padded, test_padded_runs,
                 test_delivery, test_programs, test_padded_program, test_pack_versions, test_train_versions, test_payload_store,
                 test_failures):
        test(t)
    print("%d rows, %d do not hold" % (t.rows, t.failed))
    return 1 if t.failed else 0


def main(words):
    if not words:
        return self_test()
    if len(words) == 1 and words[0] in STEPS:
        written, said = outputs(words[0], sys.stdin.buffer.read())
        sys.stdout.buffer.write(written)
        sys.stderr.buffer.write(said)
        return 0
    if words == ["vectors"]:
        sys.stdout.write(vectors(sys.stdin.read()))
        return 0
    print("usage: rules.py [pack|padded|unpack|planlist|vectors]", file=sys.stderr)
    return 2


if __name__ == "__main__":
    sys.exit(main(sys.argv[1:]))
