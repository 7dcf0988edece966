#!/usr/bin/env python3
"""Writes the built-in recording, crates/inspect/stdin: a cell file, every kind of message, faulty ones, one that is cut off.

With --check it writes nothing and says whether the recording is the one that it would write.
"""
import pathlib
import sys

CELL_FILE = bytes.fromhex("03 04 0101 0001 0101 0002 0303 0001 01 03 00")


def message(kind, *elements):
    body = b"".join(elements)
    return bytes([kind]) + len(body).to_bytes(3, "big") + body


def octets(text):
    return bytes.fromhex(text)


def listed(identifier, body):
    return bytes([identifier]) + len(body).to_bytes(2, "big") + body


def cells(text):
    return listed(0x04, octets(text))


def completed(text):
    return listed(0x08, octets(text))


def failures(text):
    return listed(0x09, octets(text))


def identifier(value):
    return bytes([0x0E]) + value.to_bytes(2, "big")


def new_serial(value):
    return bytes([0x03]) + value.to_bytes(2, "big")


def old_serial(value):
    return bytes([0x02]) + value.to_bytes(2, "big")


def page(content, used=None):
    filling = b"\x2b" if used is None else b"\x00"
    length = len(content) if used is None else used
    return bytes([0x01, length]) + content.ljust(82, filling)


def packed(text):
    """Seven-bit codes, eight of them in seven octets, the low bits first."""
    bits = sum(ord(c) << (7 * i) for i, c in enumerate(text))
    return bits.to_bytes((7 * len(text) + 7) // 8, "little")


BASIC = octets("12 00")
EXTENDED = octets("12 01")
ALL = cells("06")
BOTH = cells("01 0101 0001 0101 0002")


def write_replace(where, channel, category, period, broadcasts, coding, pages, old=b"", new=0x1010):
    return message(
        0x01,
        identifier(0x32),
        new_serial(new),
        old,
        where,
        channel,
        bytes([0x05, category]),
        bytes([0x06]) + period.to_bytes(2, "big"),
        bytes([0x07]) + broadcasts.to_bytes(2, "big"),
        bytes([0x13, len(pages)]),
        bytes([0x0C, coding]),
        *pages,
    )


def requests():
    yield message(0x16, octets("18 26"))
    yield message(0x10, ALL)
    one = page(packed("Water main burst in High Street"))
    yield write_replace(ALL, BASIC, 2, 10, 0, 0x0F, [one])
    two = [page(b"Road closed until noon"), page(bytes(range(0x80, 0xD2)))]
    yield write_replace(cells("05 0101 0202"), EXTENDED, 0, 4095, 65535, 0x44, two, old_serial(0x100F))
    yield message(0x04, identifier(0x32), old_serial(0x1010), cells("02 0001"), BASIC)
    yield message(0x0A, identifier(0x32), old_serial(0x1010), cells("01 0101 0002 0101 0009"), EXTENDED)


def texts():
    """Characters at the edges of what is plain; pages that are no text, for their points, or since half of them is plain; seven bits or eight."""
    pages = [page(b"Is the zoo open? #$% @AZ[ `az{"), page(b"..........ab"), page(b"ab\x80\x81"), page(b"abc\x80\x81")]
    yield write_replace(cells("02 0001"), BASIC, 1, 17, 1, 0x44, pages, new=0x0012)
    yield write_replace(cells("05 0303"), BASIC, 2, 1, 1, 0x10, [page(b"Eight bits")], old_serial(0x000F), 0x0010)


def write_answers():
    yield message(0x02, identifier(0x32), new_serial(0x1010), BOTH, BASIC)
    counts = completed("01 0101 0001 0007 00 0101 0002 ffff 01")
    yield message(0x02, identifier(0x32), new_serial(0x1020), old_serial(0x1010), counts, BOTH, EXTENDED)
    wrong = failures("01 0101 0001 0c 05 0202 0f 02 0009 03 06 00 0e")
    some = completed("02 0002 0000 02")
    yield message(0x03, identifier(0x32), new_serial(0x1020), old_serial(0x1010), wrong, some, cells("02 0002"), BASIC)


def other_answers():
    gone = completed("01 0101 0001 0003 00")
    yield message(0x05, identifier(0x32), old_serial(0x1010), gone, BASIC)
    none = failures("01 0101 0001 02")
    yield message(0x06, identifier(0x32), old_serial(0x1010), none, completed("01 0101 0002 0001 00"), BASIC)
    yield message(0x0B, identifier(0x32), old_serial(0x1010), gone, BASIC)
    yield message(0x0C, identifier(0x32), old_serial(0x1010), none, BASIC, completed("01 0101 0002 0001 00"))
    yield message(0x11, BOTH)
    yield message(0x12, failures("02 0009 03"), cells("01 0101 0001"))
    yield message(0x13, BOTH, octets("16 00"), octets("0d 01"))
    yield message(0x14, failures("01 0101 0002 0a"), octets("16 01"))
    yield message(0x15, octets("0b 04"))
    yield message(0x15, octets("0b 01"), identifier(0x32), new_serial(0x1010), old_serial(0x100F), BASIC)
    yield message(0x17)


def faulty():
    yield message(0x16, octets("18 27"))
    yield message(0x16, octets("19 01"))
    yield message(0x16)
    yield message(0x40, b"\x00")
    yield message(0x0D, ALL)
    yield message(0x17, b"\x18\x01")
    yield message(0x10, octets("04 00 09 01 0101"))
    yield message(0x10, cells("01 0101 0001 0101"))
    yield message(0x04, identifier(0x32), cells("06"), BASIC)
    yield message(0x04, identifier(0x32), old_serial(0x1010), ALL, octets("0f 01"))
    yield write_replace(ALL, BASIC, 2, 0, 1, 0x0F, [page(b"x")])
    yield write_replace(ALL, BASIC, 2, 1, 1, 0x0F, [page(b"x", used=83)])
    yield message(0x14, failures("01 0101 0002 10"), octets("16 01"))


def recording():
    parts = [CELL_FILE, *requests(), *texts(), *write_answers(), *other_answers(), *faulty()]
    return b"".join(parts) + octets("04 00 00 0e 0e 00 32")


def main():
    top = pathlib.Path(__file__).resolve().parents[2]
    target = top / "crates" / "inspect" / "stdin"
    if sys.argv[1:] == ["--check"]:
        if target.read_bytes() != recording():
            sys.exit("tests/recordings/make.py: crates/inspect/stdin is not what this script writes")
        print("the built-in recording is the one that its script writes")
    else:
        target.write_bytes(recording())


main()
