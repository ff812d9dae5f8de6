"""The crate's side: the oracle, the classes of units on which crate and rules part, and the crate's answer foretold.

A class is decided by the unit alone, never by the crate's answer. For each unit the crate's whole answer (list, plan,
headers, payloads, or its error or panic) is foretold and then held against what the oracle says.
"""
import itertools
import os
import subprocess
from collections import namedtuple

import rules

ROOT = os.path.dirname(os.path.dirname(os.path.abspath(__file__)))
BUILT = os.path.join(ROOT, "target", "compare")

EXTENSION_ERROR = "err ErrPayloadTooSmallForObuExtensionHeader"
SIZE_ERROR = "err ErrPayloadTooSmallForObuPayloadSize"
PANIC = "panic obus"


# ---- the oracle

def build_oracle(folder):
    """Build the oracle from the crate's sources in `folder`; gives the path of the program."""
    subprocess.run([os.path.join(ROOT, "compare", "oracle", "build"), folder, BUILT], check=True)
    return os.path.join(BUILT, "oracle")


def hex_of(unit):
    """A unit as oracle and `vectors` read it."""
    return unit.hex().upper() if unit else "-"


def ask_oracle(mtu, unit):
    """What the oracle is given for one case."""
    return "%d %s\n" % (mtu, hex_of(unit))


# ---- the crate's own arithmetic on size fields, simulated

def crate_decode_leb128(val):
    """decode_leb128 of leb128.rs: 64 bits in, 32 bits out."""
    b = 0
    while True:
        b |= val & 0x7F
        val >>= 8
        if val == 0:
            return b & 0xFFFF_FFFF
        b = b << 7 & 0xFFFF_FFFF_FFFF_FFFF


def crate_read_leb128(data):
    """read_leb128 of leb128.rs: value and bytes used."""
    encoded = 0
    for i, byte in enumerate(data):
        encoded |= byte
        if byte & 0x80 == 0:
            return crate_decode_leb128(encoded), i + 1
        encoded = encoded << 8 & 0xFFFF_FFFF_FFFF_FFFF
    return 0, 0


def crate_encode_leb128(val):
    """encode_leb128 of leb128.rs: 32 bits in, 32 bits out."""
    b = 0
    while True:
        b |= val & 0x7F
        val >>= 7
        if val == 0:
            return b
        b = (b | 0x80) << 8 & 0xFFFF_FFFF


def crate_put_leb128(n):
    """put_leb128 of leb128.rs: what it writes for a length, encoded a second time."""
    encoded, out = crate_encode_leb128(n), bytearray()
    while encoded >= 0x80:
        out.append(0x80 | encoded & 0x7F)
        encoded >>= 7
    out.append(encoded)
    return bytes(out)


# ---- classes of units

Class = namedtuple("Class", "name refusal crate does")


def field_of(unit, at):
    """The bytes of the size field of the OBU at `at`, up to and with the first whose top bit is clear; whether it ends."""
    after = at + (2 if rules.has_extension(unit[at]) else 1)
    for end in range(after, len(unit)):
        if unit[end] < 128:
            return unit[after:end + 1], True
    return unit[after:], False


def value_of(field):
    """The value of a whole size field, however long."""
    return sum((byte & 127) << 7 * i for i, byte in enumerate(field))


# What the crate does at the OBU that the rules refuse: an error, a panic, or (bytes of the size field, payload length).
def gives_extension_error(unit, at):
    return EXTENSION_ERROR


def gives_size_error(unit, at):
    return SIZE_ERROR


def panics(unit, at):
    return PANIC


def reads_nothing(unit, at):
    return 0, 0


def cuts_value(unit, at):
    field, _ = field_of(unit, at)
    return len(field), value_of(field) % 2 ** 32


def keeps_last_eight(unit, at):
    field, _ = field_of(unit, at)
    return len(field), value_of(field[-8:]) % 2 ** 32


CLASSES = {c.name: c for c in [
    Class("extension byte missing", 3, "the same error", gives_extension_error),
    Class("size field missing", 4, "the same error", gives_size_error),
    Class("size field does not end, 7 bytes or fewer", 5, "size 0, and its bytes read again as OBUs", reads_nothing),
    Class("size field does not end, 8 bytes or more", 6, "size 0, and its bytes read again as OBUs", reads_nothing),
    Class("size field of more than 8 bytes", 6, "the last 8 bytes, cut to 32 bits", keeps_last_eight),
    Class("size field's value over 32 bits", 6, "the value cut to 32 bits", cuts_value),
    Class("payload runs past the unit", 7, "a panic", panics),
]}
OVER_LIMIT = "unit over the limit"          # R2; the crate has no limit and does what it does on a shorter unit
LIST_SHORT = "lent list too short"          # R8; the crate has no lent list and goes on
MTU_OVER = "mtu over its limit"             # R1; the crate has no limit
ACCEPTED = "accepted"


def class_at(unit, bad):
    """The class of the refusal `bad` that the rules give to this unit; looks at the unit's bytes alone."""
    if bad.number == 6:
        field, ends = field_of(unit, bad.offset)
        if not ends:
            return "size field does not end, 8 bytes or more"
        return "size field of more than 8 bytes" if len(field) > 8 else "size field's value over 32 bits"
    return {3: "extension byte missing", 4: "size field missing", 5: "size field does not end, 7 bytes or fewer",
            7: "payload runs past the unit"}[bad.number]


def class_of(unit):
    """The class of a unit by the rules, with any room in the list: ACCEPTED, OVER_LIMIT or one of CLASSES."""
    if len(unit) > rules.UNIT_LIMIT:
        return OVER_LIMIT
    _, bad = rules.walk(unit)
    return ACCEPTED if bad is None else class_at(unit, bad)


class Unfounded(Exception):
    """What a class says of the crate is not what the crate's own arithmetic gives."""


def step_at(unit, bad):
    """What the crate does at a refused OBU, by its class; held against the simulated read_leb128 where it reads one."""
    step = CLASSES[class_at(unit, bad)].does(unit, bad.offset)
    if bad.number in (5, 6, 7):
        after = bad.offset + (2 if rules.has_extension(unit[bad.offset]) else 1)
        length, used = crate_read_leb128(unit[after:])
        past = after + used + length > len(unit)
        if step == PANIC and not past or step != PANIC and step != (used, length):
            raise Unfounded("class %r, simulated %r" % (step, (used, length)))
        return PANIC if past else step
    return step


def foretold(unit):
    """The crate's OBU list for any unit, or its error or panic: the rules, and at each refused OBU the class's step."""
    kept, at = [], 0
    while True:
        more, bad = rules.walk(unit, at)
        kept += more
        if bad is None:
            return kept
        step = step_at(unit, bad)
        if isinstance(step, str):
            return step
        used, length = step
        header, two = unit[bad.offset], rules.has_extension(unit[bad.offset])
        after = bad.offset + (2 if two else 1)
        if rules.is_kept(header):
            kept.append(rules.Obu(header, unit[bad.offset + 1] if two else 0, after + used, length,
                                  after - bad.offset + length))
        at = after + used + length


# ---- one answer of the oracle, layer by layer

def crate_record(obu):
    """An OBU record as the oracle prints it: no start where the payload is empty."""
    return "%d,%d,%d,%d,%d" % (obu if obu.length else obu._replace(start=-1))


def list_text(obus):
    return ";".join(map(crate_record, obus)) or "-"


def plan_text(plan):
    """A plan as the oracle prints it: the crate's records have five numbers, and no start of the payload."""
    return ";".join(["%d,%d,%d,%d,%d" % packet[:5] for packet in plan]) or "-"


def starts_hold(plan):
    """P16. Whether each payload starts at the sum of the lengths before it."""
    ends = itertools.accumulate(packet.size + 1 for packet in plan)
    return [packet.start for packet in plan] == [0, *ends][:len(plan)]


NEW = 8                         # flag N in an aggregation header
NEW_WAYS = {                    # by N of packet 0 here and in the crate
    (True, True): "set in both", (False, False): "clear in both",
    (True, False): "set here alone", (False, True): "set in the crate alone"}


def crate_header(ours, obus, k):
    """The crate's header of packet k: ours but for N, which it sets on packet 0 exactly if the first OBU is of type 1."""
    return ours & ~NEW | NEW * (k == 0 and rules.obu_type(obus[0].header) == 1)


def new_way(ours, theirs):
    """Which of two headers of packet 0, ours and the crate's, has N set: a name of NEW_WAYS."""
    return NEW_WAYS[ours & NEW != 0, theirs & NEW != 0]


def both_headers(unit, obus, plan):
    """For each packet the header by the rules and the crate's."""
    ours = [rules.header_byte(unit, obus, packet, k) for k, packet in enumerate(plan)]
    return ours, [crate_header(header, obus, k) for k, header in enumerate(ours)]


def headers_text(headers):
    return ",".join(["%02X" % header for header in headers]) or "-"


def both_payloads(unit, obus, plan):
    """For each packet the payload by the rules and the one with the crate's N and length fields, and the fields that differ."""
    memo, ours, theirs, fields = {}, [], [], 0
    for packet, *headers in zip(plan, *both_headers(unit, obus, plan)):
        port, crate = (bytearray([header]) for header in headers)
        for has_length, part in rules.pieces(unit, obus, packet, memo):
            if has_length:
                port += rules.write_field(len(part))
                crate += crate_put_leb128(len(part))
                if len(part) >= 128:
                    fields += 1
            port += part
            crate += part
        ours.append(bytes(port))
        theirs.append(bytes(crate))
    return ours, theirs, fields


def payloads_text(payloads):
    return ",".join([payload.hex().upper() for payload in payloads]) or "-"


class Tally:
    """What was met: counts by name."""

    def __init__(self):
        self.counts = {}

    def add(self, name, count=1):
        self.counts[name] = self.counts.get(name, 0) + count

    def __getitem__(self, name):
        return self.counts.get(name, 0)


def outcome_of(told):
    """One word for what the crate does with a unit."""
    return "list" if isinstance(told, list) else "error" if told.startswith("err") else "panic"


def check_answer(mtu, unit, told, answer, tally, layers):
    """Hold the oracle's answer to what is foretold of it (`told`); gives the complaints, one for each layer that fails.

    `layers` are those looked at, of "lists", "plans", "headers", "payloads".
    """
    if isinstance(told, str):
        return [] if answer == told else ["lists: the crate says %s, foretold %s" % (answer, told)]
    parts = answer.split(" ")
    if parts[0] != "ok" or len(parts) != 5:
        return ["lists: the crate says %s, foretold a list" % answer]
    complaints = []

    def hold(layer, got, want):
        tally.add(layer)
        if got != want:
            complaints.append("%s: the crate has %s, foretold %s" % (layer, got, want))

    if "lists" in layers:
        hold("lists", parts[1], list_text(told))
    if not {"plans", "headers", "payloads"} & set(layers):
        return complaints
    plan = rules.plan_of([obu.size for obu in told], mtu)
    tally.add("packets", len(plan))
    if mtu > rules.MTU_LIMIT:
        tally.add(MTU_OVER)
    if "plans" in layers:
        hold("plans", parts[2], plan_text(plan))
        if not starts_hold(plan):
            complaints.append("plans: a payload's start by the rules breaks P16")
    if "headers" in layers:
        ours, theirs = both_headers(unit, told, plan)
        hold("headers", parts[3], headers_text(theirs))
        if plan:
            tally.add("N of packet 0 " + new_way(ours[0], theirs[0]))
    if "payloads" in layers:
        ours, theirs, fields = both_payloads(unit, told, plan)
        hold("payloads", parts[4], payloads_text(theirs))
        tally.add("length fields of 128 or more", fields)
        tally.add("payloads with such a field", sum(len(a) != len(b) for a, b in zip(ours, theirs)))
        tally.add("crate's payloads longer than the mtu", sum(len(p) > mtu for p in theirs))
        same = all(a[1:] == b[1:] for a, b in zip(ours, theirs))
        if same != (fields == 0):
            complaints.append("payloads: %d length fields of 128 or more, yet equal behind the headers is %s" % (fields, same))
        if any(not 2 <= len(p) <= mtu or len(p) != r.size + 1 for p, r in zip(ours, plan)):
            complaints.append("payloads: a payload by the rules breaks P13")
        if sum(map(len, theirs)) - sum(map(len, ours)) != fields:
            complaints.append("payloads: a length field is not one byte longer in the crate")
    return complaints
