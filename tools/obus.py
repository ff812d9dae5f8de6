"""A stream of OBUs that all have their size fields (AV1 specification, section 5), taken apart. Standard library only."""
import signal
import sys
from collections import namedtuple

SEQUENCE_HEADER, TEMPORAL_DELIMITER, FRAME_HEADER, METADATA, FRAME = 1, 2, 3, 5, 6
DELIMITER = b"\x12\x00"         # a temporal delimiter as it stands in a stream

# One OBU: where its header byte stands, its type, its spatial layer (0 without an extension byte), where its body begins and ends.
Obu = namedtuple("Obu", "at type layer body end")


class Bad(Exception):
    """What is wrong with the input, in words."""


def size_field(stream, at):
    """The size field at `at`: its value, and the offset after it. At most eight bytes belong to one."""
    value = 0
    for i, byte in enumerate(stream[at:at + 8]):
        value |= (byte & 127) << 7 * i
        if byte < 128:
            return value, at + i + 1
    raise Bad("the size field at offset %d does not end" % at)


def obus(stream):
    """The OBUs of a stream, in order."""
    at = 0
    while at < len(stream):
        header, body, layer = stream[at], at + 1, 0
        if header & 128:
            raise Bad("no OBU begins at offset %d: the top bit of its byte is set" % at)
        if header & 4:
            if body == len(stream):
                raise Bad("the OBU at offset %d is cut" % at)
            layer = stream[body] >> 3 & 3
            body += 1
        if not header & 2:
            raise Bad("the OBU at offset %d has no size field" % at)
        size, body = size_field(stream, body)
        if body + size > len(stream):
            raise Bad("the OBU at offset %d is cut" % at)
        yield Obu(at, header >> 3 & 15, layer, body, body + size)
        at = body + size


def run(name, main):
    """Writes what main makes of the command's words. Bad input, and a file that cannot be read, end with one line and status 1."""
    signal.signal(signal.SIGPIPE, signal.SIG_DFL)       # a reader that has enough ends the tool, with nothing said
    try:
        written = main(sys.argv[1:])
    except Bad as what:
        sys.exit("%s: %s" % (name, what))
    except OSError as what:
        sys.exit("%s: %s: %s" % (name, what.filename or "the input", what.strerror))
    sys.stdout.buffer.write(written)
    sys.stdout.buffer.flush()
