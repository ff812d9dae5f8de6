"""Inputs of `pack`, `padded`, `unpack` and `planlist`, as `programs`, `planlists` and `runs` give them."""
import rules

STORE = rules.STORE_BYTES
SMALL = bytes.fromhex("0A 01 7F 32 00")         # a unit of two OBUs
KEY = bytes.fromhex("0A 01 00 32 01 10")        # one that begins a sequence, so that N is set
PADDED = bytes.fromhex("32 80 00 12 81 00 01")  # one of a kept and a dropped OBU, both with a padded size field


def pack_input(mtu, first, *units, version=1):
    """G2. An input of `pack`; one of no known version has a head as version 1."""
    return bytes([version]) + mtu.to_bytes(rules.MTU_BYTES.get(version, 2), "big") + first.to_bytes(2, "big") + b"".join(
        len(unit).to_bytes(4, "big") + unit for unit in units)


def train(*records, version=1):
    """T1, T2. A train of (number, payload); one of no known version has records as version 1."""
    known = version if version in rules.WIDTHS else 1
    return bytes([version]) + b"".join(rules.train_record(number % 65_536, data, known) for number, data in records)


def listed(mtu, unit, length=None, version=1):
    """G8. An input of `planlist`; `length` is what the head states, where that is not the unit's. The mtu has 16 bits in any version."""
    length = len(unit) if length is None else length
    return bytes([version]) + mtu.to_bytes(2, "big") + length.to_bytes(4, "big") + unit


def planlist_inputs():
    """G8 to G11, by name: 77 inputs of `planlist`; none is cut."""
    whole = listed(5, SMALL)
    found = {"unit.plan": whole}
    for k, (text, mtu, _) in enumerate(rules.UNIT_ROWS):            # the units worked through, U1 to U18 and more
        row = listed(mtu, bytes.fromhex(text)) if mtu < 65_536 else whole      # the mtu has 16 bits
        if row != whole:
            found["row_%d.plan" % k] = row
    # bytes left over; other versions; lengths that are not the unit's, some with a high byte set
    found["surplus.plan"] = whole + b"\0"
    found["surplus_5.plan"] = whole + SMALL
    for version, name in ((0, "version_0"), (2, "version"), (255, "version_255")):
        found[name + ".plan"] = listed(5, SMALL, version=version)
    found["version_long.plan"] = b"\x02\0\0" + whole[1:]                   # as version 2 of the input of `pack`, with 32 bits
    for length in (0, 1, 4, 6, 0x0500, 0x050000, 0x05000000, 0x01000005, 0x00010005, 0xFFFFFFFF):
        found["length_%08x.plan" % length] = listed(5, SMALL, length)
    # L12: a unit that fills the store, one byte less, one byte more, and one byte more stated
    for n, name in ((STORE - 1, "under_unit_store"), (STORE, "unit_store"), (STORE + 1, "over_unit_store")):
        found[name + ".plan"] = listed(65_533, b"\x30" + b"\xA5" * (n - 1))
    found["stated_over_store.plan"] = listed(65_533, b"\x30" + b"\xA5" * (STORE - 1), STORE + 1)
    # L13: lists that are filled, and one record more
    for name, count in (("", 512), ("over_", 513)):
        found[name + "list.plan"] = listed(1200, b"\x32\x00" * count)
        found[name + "plan.plan"] = listed(3, b"\x30" + bytes(2 * count - 1))
    found["dropped_and_list.plan"] = listed(65_533, b"\x12\x00" * 600 + b"\x32\x00" * 512)
    found["8_before_7.plan"] = listed(65_533, b"\x32\x00" * 513 + b"\x32\x02\xA1")
    found["8_before_9.plan"] = listed(3, b"\x32\x00" * 513)
    # the other refusals, away from the unit's first byte; the mtu's limits
    for number, unit in broken_units().items():
        found["refused_%d.plan" % number] = listed(20, unit)
    for mtu in (0, 1, 2, 3, 65_533, 65_534, 65_535):
        found["mtu_%d.plan" % mtu] = listed(mtu, SMALL)
    # headers with every digit in its place: Z, Y, W 0 to 3, N, and numbers of several digits
    many = KEY + b"\x32\x00" * 5 + b"\x36\x08\x90\x01" + bytes(144) + b"\x32\x02\xA1\xA2" * 3
    for mtu in (3, 4, 6, 7, 8, 9, 10, 12, 20, 131, 132, 133, 300, 1200):
        found["headers_%d.plan" % mtu] = listed(mtu, many)
    return found


def padded_inputs():
    """F6, G17, by name: inputs of `pack` with padded size fields, for `padded`; none is cut."""
    dropped, most = b"\x12\x80\x80\x00", b"\x12\x80\x00" * (STORE // 3)
    found = {
        # kept and dropped OBUs, none padded, nothing kept, no OBU; the same in version 2; more units than a digit counts
        "padded.in": pack_input(5, 65_535, PADDED, SMALL, dropped, b"", PADDED),
        "long_padded.in": pack_input(1_048_576, 0, PADDED, dropped, b"", PADDED, version=2),
        "padded_units.in": pack_input(20, 0, *(PADDED * (k % 7) for k in range(123))),
        # each type in turn, and with an extension byte that looks like the first byte of a field
        "padded_types.in": pack_input(20, 0, *(bytes([8 * k + 2, 0x81, 0, 0xA1]) + SMALL for k in range(16))),
        "padded_extension.in": pack_input(20, 0, *(bytes([8 * k + 6, 0x80, *field]) for k in (2, 6) for field in ((0,), (0x80, 0)))),
        # payloads, and OBUs without a size field, that look so
        "padded_payload.in": pack_input(20, 0, bytes.fromhex("32028000"), bytes.fromhex("308000"), bytes.fromhex("0A800030 8000")),
        # no packets: the mtu is below 3
        "padded_mtu_2.in": pack_input(2, 0, PADDED, SMALL),
        "padded_mtu.in": pack_input(1_048_577, 0, PADDED, version=2),
        # a refused unit behind a good one: its own padded fields do not count; R8 and R9, and units that just do before them
        "padded_refused.in": pack_input(20, 0, PADDED, PADDED + b"\x32\x02\xA1", PADDED),
        "padded_list.in": pack_input(20, 0, b"\x32\x80\x00" * 512, b"\x32\x80\x00" * 513, PADDED),
        "padded_plan.in": pack_input(3, 0, b"\x32\xFF\x87\x00" + bytes(1023), b"\x32\x80\x88\x00" + bytes(1024), PADDED),
        # as many as the unit store has room for, all dropped; a field of eight bytes in a unit that fills it
        "padded_most.in": pack_input(20, 0, most, most[:-3]),
        "padded_store.in": pack_input(1200, 0, b"\x32" + rules.padded_field(STORE - 9, 8) + bytes(STORE - 9)),
    }
    # values in every length that their field can have; the larger ones in the shortest, in one byte more, and in eight
    for value in (0, 1, 127, 128, 16_383, 16_384):
        least = rules.field_size(value)
        sizes = range(least, rules.FIELD_BYTES + 1) if value < 1000 else (least, least + 1, rules.FIELD_BYTES)
        found["padded_%d.in" % value] = pack_input(1200, 0, *(b"\x32" + rules.padded_field(value, n) + bytes(value) for n in sizes))
    return found


def broken_units():
    """R3 to R7, by number: units whose third OBU is refused so."""
    ends = {3: "36", 4: "32", 5: "32 FF", 6: "32 80 80 80 80 10", 7: "32 01"}
    return {number: SMALL + bytes.fromhex(end) for number, end in ends.items()}
