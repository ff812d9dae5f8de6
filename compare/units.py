"""The units that are compared: made the same at each run, by fixed seeds and by counting.

A case is a kind, how many numbers the lent OBU list and the lent plan list have, how many bytes the lent output has, into
which each packet is written alone, an mtu, and the unit. `cases()` gives all of them.
This file makes bytes; it knows nothing of what the rules or the crate answer.
"""
import itertools
import random
from collections import namedtuple

Case = namedtuple("Case", "kind numbers mtu unit plan output")

LIMIT = 1_048_576               # bytes of a unit
OBU_NUMBERS, PLAN_NUMBERS = 5, 6        # of a record in a lent list
MOST_NUMBERS = 20_000           # of a lent list; `vectors` has two of 24,576
MOST_OUTPUT = 262_144           # bytes of a lent output
HEADERS = bytes(kind << 3 | bits for kind in (1, 2, 3, 6, 8, 15) for bits in (0, 2, 4, 6))
RESERVED = bytes([0xB2, 0x33, 0x8F, 0x95])          # header bytes with bit 7, bit 0 or both set
SIZES = bytes([0x00, 0x01, 0x02, 0x7F, 0x80, 0x81, 0xFF])
THREE = HEADERS + RESERVED + SIZES
FOUR = bytes([0x0A, 0x12, 0x30, 0x32, 0x34, 0x36, 0x46, 0x7A, 0xB3, 0x00, 0x01, 0x02, 0x7F, 0x80, 0xFF])
SIX = bytes([0x32, 0x36, 0x12, 0x00, 0x01, 0x80])
KEPT = (1, 3, 6, 6, 6, 4, 5, 7, 0, 9)               # types of kept OBUs, frames more often
DROPPED = (2, 2, 8, 15)
LARGE_MTUS = (1200, 1500, 9000, 16_384, 16_390, 32_768, 65_533, 65_534, 100_000, 1_048_576, 1_048_577, 2_000_000)


class Dice:
    """Random choices by Random.random() alone, which is the same in every version of Python."""

    def __init__(self, seed):
        self.next = random.Random(seed).random

    def below(self, n):
        return int(self.next() * n)

    def between(self, low, high):
        return low + self.below(high - low + 1)

    def pick(self, seq):
        return seq[self.below(len(seq))]

    def chance(self, percent):
        return self.below(100) < percent

    def bytes(self, n):
        return bytes([self.below(256) for _ in range(n)]) if n < 64 else bytes([self.below(256)]) * n


# ---- pieces of units

def field(value, width=1):
    """A size field of this value, padded to `width` bytes where it is shorter."""
    out = bytearray()
    while value >= 128 or len(out) + 1 < width:
        out.append(128 | value & 127)
        value >>= 7
    out.append(value)
    return bytes(out)


def header(dice, size_bit, extension=None):
    """Header bytes of a kept or, less often, a dropped type."""
    kind = dice.pick(DROPPED) if dice.chance(12) else dice.pick(KEPT)
    first = kind << 3 | (2 if size_bit else 0)
    if dice.chance(10):
        first |= dice.pick((0x80, 0x01, 0x81))
    if dice.chance(20) if extension is None else extension:
        return bytes([first | 4, dice.below(256)])
    return bytes([first])


def obu(dice, length, size_bit=True, extension=None):
    """An OBU whose payload has this length; its size field now and then padded."""
    head = header(dice, size_bit, extension)
    size = field(length, dice.between(1, 8) if dice.chance(8) else 1) if size_bit else b""
    return head + size + dice.bytes(length)


def unit_of(dice, lengths):
    """A well-formed unit of OBUs with these payload lengths; the last one at times without a size field."""
    parts = [obu(dice, n) for n in lengths]
    if parts and dice.chance(25):
        parts[-1] = obu(dice, lengths[-1], size_bit=False)
    return b"".join(parts)


def lengths_of(dice):
    """Payload lengths of a few OBUs: small ones, and some around 127 and 128."""
    return [dice.pick((0, 0, 1, 1, 2, 3, 4, 5, dice.below(20), dice.below(60), dice.between(124, 131)))
            for _ in range(dice.below(8))]


# ---- what goes with a unit

def lent(dice, unit, count):
    """Numbers of the lent list: three times in four enough for any list of this unit, else about `count` records."""
    if dice.chance(75):
        return MOST_NUMBERS if dice.chance(30) else min(MOST_NUMBERS, OBU_NUMBERS * len(unit) + dice.below(OBU_NUMBERS))
    return min(MOST_NUMBERS, dice.below(OBU_NUMBERS * (count + 1)))


def rest(unit, mtu):
    """Numbers of the plan list and bytes of the output: eight times in ten ample, else one of them less than the unit may need in all.

    Decided by the unit's own bytes, so that units and lists stay the same at each run.
    """
    dice = Dice("%d %s" % (mtu, unit[:64].hex()))
    roll = dice.below(10)
    packets = len(unit) // max(1, mtu - 1) + 3
    if roll == 0:
        return min(MOST_NUMBERS, dice.below(PLAN_NUMBERS * packets)), MOST_OUTPUT
    if roll == 1:
        return MOST_NUMBERS, min(MOST_OUTPUT, dice.below(len(unit) + 2 * packets))
    return MOST_NUMBERS, MOST_OUTPUT


def mtu_of(dice):
    """An mtu: 0 to 200, small ones more often, and some large."""
    roll = dice.below(100)
    if roll < 40:
        return dice.below(201)
    if roll < 90:
        return dice.between(3, 24)
    return dice.pick(LARGE_MTUS)


def case(kind, dice, unit, count, mtu=None):
    numbers, mtu = lent(dice, unit, count), mtu_of(dice) if mtu is None else mtu
    return Case(kind, numbers, mtu, unit, *rest(unit, mtu))


# ---- kinds that count through all there are

def every(kind, seed, alphabet, lengths):
    dice = Dice(seed)
    for n in lengths:
        for symbols in itertools.product(alphabet, repeat=n):
            yield case(kind, dice, bytes(symbols), n)


def placed():
    """Well-formed units of up to six OBUs of small sizes, each at every small mtu."""
    dice = Dice(11)
    for sizes, counts, mtus in (((1, 2, 3, 4, 7), (1, 2, 3, 4), range(3, 15)), ((1, 2, 4), (5, 6), range(3, 21))):
        for count in counts:
            for row in itertools.product(sizes, repeat=count):
                for mtu in mtus:
                    parts = []
                    for size in row:
                        two = size >= 2 and dice.chance(20)
                        head = bytes([dice.pick((1, 3, 6)) << 3 | 2 | (4 if two else 0)]) + (b"\x08" if two else b"")
                        parts.append(head + field(size - len(head)) + dice.bytes(size - len(head)))
                    yield case("placed", dice, b"".join(parts), count, mtu)


# OBUs that N looks at, and some that it does not: sequence headers, plain, reduced and empty; frames that are shown key frames, hidden,
# not key frames, of temporal layer 1, of spatial layer 3, empty; a frame header, a redundant one; metadata, a temporal delimiter
FLAGGED = [bytes.fromhex(text) for text in (
    "0A0100", "0A0108", "0A00", "320110", "320100", "320130", "36200110", "36180110", "3200", "1A0110", "3A0110", "2A0104", "1200")]


def flagged():
    """FLAGGED in every order, one to four of them; then each byte that N looks at, with every value."""
    dice = Dice(12)
    for count in (1, 2, 3, 4):
        for row in itertools.product(FLAGGED, repeat=count):
            yield case("flagged", dice, b"".join(row), count)
    for sequence, frame in itertools.product(b"\x00\x08", b"\x10\xFF"):
        for byte in range(256):
            yield case("flagged", dice, bytes([0x0A, 1, byte, 0x32, 1, frame]), 2)
            yield case("flagged", dice, bytes([0x0A, 1, sequence, 0x1A, 1, byte]), 2)
            yield case("flagged", dice, bytes([0x0A, 1, sequence, 0x36, byte, 1, frame]), 2)
            yield case("flagged", dice, bytes([byte | 2, 1, sequence, 0x32, 1, frame]), 2)
            yield case("flagged", dice, bytes([0x0A, 1, sequence, byte | 2, 1, frame]), 2)


# ---- kinds that never end

def flag_byte(dice, kind):
    """The first byte of an OBU payload of this type: mostly one of those between which N decides."""
    if dice.chance(20):
        return dice.below(256)
    return dice.pick((0x00, 0x00, 0x08, 0xF7, 0xFF)) if kind == 1 else dice.pick((0x10, 0x10, 0x10, 0x1F, 0x00, 0x30, 0x50, 0x90))


def flagged_obu(dice, kind):
    """An OBU of this type, at times with layer ids, at times with an empty payload."""
    head = bytes([kind << 3 | 2])
    if dice.chance(30):
        head = bytes([head[0] | 4, dice.pick((0x00, 0x08, 0x1F, 0x20, 0x40, 0x80, 0xE0))])
    length = dice.pick((0, 1, 1, 2, 3, 5, 8, dice.below(20), dice.between(124, 131)))
    body = bytes([flag_byte(dice, kind)]) + dice.bytes(length - 1) if length else b""
    return head + field(length, dice.between(1, 8) if dice.chance(8) else 1) + body


def sequences():
    """Sequence headers, frames and some OBUs besides in any order; a sequence header often leads, or comes second."""
    dice = Dice(27)
    while True:
        kinds = [dice.pick((1, 3, 3, 6, 6, 6, 4, 5, 7, 2, 0)) for _ in range(dice.between(1, 8))]
        if dice.chance(60):
            kinds.insert(dice.below(2), 1)
        yield case("sequences", dice, b"".join([flagged_obu(dice, kind) for kind in kinds]), len(kinds))


def formed():
    """Well-formed units."""
    dice = Dice(21)
    while True:
        lengths = lengths_of(dice)
        yield case("formed", dice, unit_of(dice, lengths), len(lengths))


def edge():
    """OBUs around 127 and 128 bytes, and mtus around them and around their sums."""
    dice = Dice(22)
    while True:
        lengths = [dice.pick((0, 1, dice.between(120, 132), dice.between(120, 132)))
                   for _ in range(dice.between(1, 5))]
        mtu = dice.pick((dice.between(122, 136), dice.between(250, 266), sum(lengths) + dice.between(0, 12)))
        yield case("edge", dice, unit_of(dice, lengths), len(lengths), mtu)


def many():
    """Many small OBUs."""
    dice = Dice(23)
    while True:
        count = dice.pick((dice.between(9, 60), dice.between(9, 60), dice.between(100, 700)))
        unit = unit_of(dice, [dice.pick((0, 0, 0, 1, 1, 2, dice.below(6))) for _ in range(count)])
        yield case("many", dice, unit, count)


def large():
    """OBUs around 16,383 and 16,384 bytes."""
    dice = Dice(24)
    while True:
        lengths = [dice.pick((0, 3, dice.between(100, 400), dice.between(16_378, 16_390)))
                   for _ in range(dice.between(1, 5))]
        lengths[dice.below(len(lengths))] = dice.between(16_378, 16_390)
        mtu = dice.pick((dice.between(16_376, 16_396), dice.between(16_376, 16_396), 1200, mtu_of(dice)))
        yield case("large", dice, unit_of(dice, lengths), len(lengths), mtu)


def odd_field(dice, length):
    """A size field that is long, or large, or does not end; where it can be read short, it says `length`."""
    roll = dice.below(8)
    if roll == 0:                                           # no end
        return bytes([128 | dice.below(128) for _ in range(dice.between(1, 12))])
    if roll == 1:                                           # padded
        return field(length, dice.between(2, 8))
    if roll == 2:                                           # more than 8 bytes, the last 8 small
        return bytes([128 | dice.below(128) for _ in range(dice.between(1, 5))]) + field(length, 8)
    if roll == 3:                                           # more than 8 bytes, the last 8 over 32 bits
        return b"\x80" * dice.between(1, 3) + field(2 ** 32 * dice.between(1, 2 ** 23) + length, 8)
    if roll == 4:                                           # over 32 bits, the low 32 small
        return field(2 ** 32 * dice.pick((1, 2, 7, dice.between(1, 2 ** 23))) + length, dice.between(1, 8))
    if roll == 5:                                           # around 32 bits
        return field(2 ** 32 + dice.between(-3, 3), dice.between(1, 8))
    if roll == 6:                                           # over 32 bits, any
        return field(dice.between(2 ** 32, 2 ** 56 - 1))
    return field(dice.pick((2 ** 31, 2 ** 28, 2 ** 21 - 1, 200, length + 1, length + 2)), dice.between(1, 8))


def tight():
    """Well-formed units with an output of about a packet's length, often a byte or two below the mtu."""
    dice = Dice(28)
    while True:
        unit, mtu = unit_of(dice, lengths_of(dice)), dice.pick((dice.between(3, 24), dice.between(3, 24), dice.between(3, 200)))
        output = dice.pick((mtu + 1, mtu, mtu, mtu - 1, mtu - 1, mtu - 2, dice.below(mtu), dice.below(mtu)))
        yield Case("tight", MOST_NUMBERS, mtu, unit, MOST_NUMBERS, output)


def fields():
    """Units with an odd size field, good OBUs before it and behind it."""
    dice = Dice(25)
    while True:
        before, length = dice.below(3), dice.below(6)
        unit = unit_of(dice, [dice.below(4) for _ in range(before)]) if dice.chance(50) else b""
        unit += header(dice, True) + odd_field(dice, length) + dice.bytes(length)
        if dice.chance(40):
            unit += unit_of(dice, [dice.below(4) for _ in range(dice.between(1, 2))])
        if dice.chance(10):
            unit += dice.pick((b"\x32", b"\x36", b"\x36\x08", b"\x32\x80", b"\x32\x01"))
        yield case("fields", dice, unit, before + 1)


def damaged():
    """Copies of well-formed units with a byte changed, put in or taken out, or cut; one to three times."""
    dice = Dice(26)
    while True:
        lengths = lengths_of(dice) or [1]
        if dice.chance(10):
            lengths = [dice.below(3) for _ in range(dice.between(9, 40))]
        unit = bytearray(unit_of(dice, lengths))
        for _ in range(dice.pick((1, 1, 1, 2, 3))):
            at = dice.below(len(unit)) if dice.chance(50) else dice.below(min(len(unit), 12)) if unit else 0
            byte = dice.pick(THREE) if dice.chance(70) else dice.below(256)
            roll = dice.below(10)
            if not unit or roll < 2:
                unit.insert(at, byte)
            elif roll < 6:
                unit[at] = byte
            elif roll < 7:
                del unit[at]
            else:
                del unit[at:]
        yield case("damaged", dice, bytes(unit), len(lengths))


# ---- units at the limit

def at_limit():
    """Units at and just over 1,048,576 bytes."""
    full, ample = LIMIT, MOST_NUMBERS
    whole = b"\x32" + field(full - 4) + b"\x5A" * (full - 4)           # header, three bytes of size, payload
    short = {n: b"\x32" + field(full - n - 4) + bytes(full - n - 4) for n in (1, 2, 9, 10)}     # by n bytes
    row = b"\x0A" + field(258) + b"\x11" * 258
    for numbers, mtu, unit in (
        (ample, 1200, b"\x30" + b"\x7F" * (full - 1)), (5, 65_533, b"\x30" + b"\x80" * (full - 1)),
        (5, 3, whole), (0, 1200, whole), (5, 65_533, whole), (9, 1200, whole[:-1]), (5, 1200, whole + b"\x30"),
        (5, 1_048_576, b"\x30" + b"\x80" * (full - 1)), (5, 1_048_576, whole), (5, 1_048_577, whole),
        (5, MOST_OUTPUT, whole), (5, MOST_OUTPUT + 1, whole),
        (ample, 1200, b"\x30" + b"\x7F" * full), (ample, 0, b"\x36" * (full + 1)),
        (ample, 0, whole + b"\x36"), (ample, 0, whole + b"\x32"), (ample, 0, b"\x32" + field(full) + bytes(full - 3)),
        (ample, 0, b"\x12\x00" * (full // 2)), (ample, 1200, b"\x32\x00" * (full // 2)),
        (0, 0, b"\x7A\x00" * (full // 2) + b"\x12"), (ample, 0, short[1] + b"\x36"), (ample, 0, short[1] + b"\x32"),
        (ample, 1200, short[1] + b"\x30"), (9, 0, short[1] + b"\x30"), (10, 0, short[1] + b"\x30"),
        (ample, 0, short[2] + b"\x32\xFF"), (ample, 0, short[2] + b"\x32\x01"), (ample, 0, short[2] + b"\x32\x00"),
        (ample, 0, short[9] + b"\x32" + b"\x80" * 8), (ample, 0, short[10] + b"\x32" + b"\x80" * 8 + b"\x00"),
        (ample, 0, b"\x32" + field(full - 3) + bytes(full - 4)),
        (ample, 1200, row * 4000), (ample - 1, 1200, row * 4000), (ample, 1200, row * 4001),
    ):
        yield Case("at the limit", numbers, mtu, unit, ample, MOST_OUTPUT)


# ---- all of them

KINDS = [  # name, how many, the cases, whether there are more
    ("0 to 2 bytes", 65_793, lambda: every("0 to 2 bytes", 1, range(256), (0, 1, 2)), False),
    ("3 bytes", 42_875, lambda: every("3 bytes", 2, THREE, (3,)), False),
    ("4 bytes", 50_625, lambda: every("4 bytes", 3, FOUR, (4,)), False),
    ("5 and 6 bytes", 54_432, lambda: every("5 and 6 bytes", 4, SIX, (5, 6)), False),
    ("placed", 26_856, placed, False),
    ("flagged", 36_060, flagged, False),
    ("sequences", 20_000, sequences, True),
    ("formed", 40_000, formed, True),
    ("edge", 8_000, edge, True),
    ("many", 2_500, many, True),
    ("large", 400, large, True),
    ("tight", 10_000, tight, True),
    ("fields", 25_000, fields, True),
    ("damaged", 60_000, damaged, True),
    ("at the limit", 34, at_limit, False),
]
ALL = sum(count for _, count, _, _ in KINDS)


def cases(wanted=ALL):
    """`wanted` cases: fewer thin out every kind evenly (units at the limit stay), more add to the kinds that never end."""
    fixed = sum(count for _, count, _, more in KINDS if not more)
    for name, count, made, more in KINDS:
        if name == "at the limit" or wanted == ALL:
            quota = count
        elif wanted < ALL:
            quota = max(1, count * wanted // ALL)
        else:
            quota = count * (wanted - fixed) // (ALL - fixed) if more else count
        if more:
            yield from itertools.islice(made(), quota)
        else:
            for i, one in enumerate(made()):
                if (i + 1) * quota // count > i * quota // count:
                    yield one
