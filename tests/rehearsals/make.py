#!/usr/bin/env python3
"""Writes the built-in day, crates/rehearse/stdin, and the built-in drill, crates/drill/stdin.

With --check it writes nothing and says whether these are the ones that it would write.
"""
import pathlib
import sys

HARBOUR, TOWN, ISLAND = (0x0101, 0x0001), (0x0101, 0x0002), (0x0202, 0x0007)
BASIC, EXTENDED = 0, 1
HOUR = 1912


def message(kind, *elements):
    body = b"".join(elements)
    return bytes([kind]) + len(body).to_bytes(3, "big") + body


def two(identifier, value):
    return bytes([identifier]) + value.to_bytes(2, "big")


def cells(*named):
    entries = b"".join(lac.to_bytes(2, "big") + ci.to_bytes(2, "big") for lac, ci in named)
    body = b"\x01" + entries if named else b"\x06"
    return bytes([0x04]) + len(body).to_bytes(2, "big") + body


def page(text):
    content = text.encode("ascii")
    return bytes([0x01, len(content)]) + content.ljust(82, b"\x00")


def write_replace(identifier, serial, old, where, channel, period, broadcasts, *texts):
    return message(
        0x01,
        two(0x0E, identifier),
        two(0x03, serial),
        b"" if old is None else two(0x02, old),
        where,
        bytes([0x12, channel, 0x05, 0x02]),
        two(0x06, period),
        two(0x07, broadcasts),
        bytes([0x13, len(texts), 0x0C, 0x44]),
        *[page(text) for text in texts],
    )


def reference(kind, identifier, serial, where, channel):
    return message(kind, two(0x0E, identifier), two(0x02, serial), where, bytes([0x12, channel]))


def kill(*arguments):
    return reference(0x04, *arguments)


def query(*arguments):
    return reference(0x0A, *arguments)


def reset(where):
    return message(0x10, where)


def keep_alive(code):
    return message(0x16, bytes([0x18, code]))


def cell_file(*rows):
    identities = b"".join(lac.to_bytes(2, "big") + ci.to_bytes(2, "big") for (lac, ci), _ in rows)
    return bytes([len(rows), 4]) + identities + bytes(capability for _, capability in rows)


FERRY, ROAD, WEATHER = 0x0064, 0x0065, 0x0066


def day():
    file = cell_file((ISLAND, 1), (TOWN, 3), (HARBOUR, 3))
    yield "# A day in the harbour. Cell 0 is the island, which has no extended channel, 1 the town, 2 the harbour."
    yield "cells " + file.hex(" ").upper()
    yield "site drill"
    yield "open"
    yield "announce 1"

    def sent(octets):
        return "message 1 " + octets.hex(" ").upper()

    yield "# The centre says that it sends a KEEP-ALIVE every two minutes."
    yield sent(keep_alive(0x26))
    yield "# Morning: a ferry notice for all cells about every minute, until it is ended."
    yield sent(write_replace(FERRY, 0x1010, None, cells(), BASIC, 32, 0, "Ferry to the island at 09:30 and 12:00"))
    yield "# A road notice for harbour and town, sixty times, on the extended channel."
    yield sent(write_replace(ROAD, 0x1010, None, cells(HARBOUR, TOWN), EXTENDED, 16, 60, "Quay Street is closed to cars until noon"))
    yield f"periods {HOUR}"
    yield "# How often did the ferry notice go out so far?"
    yield sent(query(FERRY, 0x1010, cells(HARBOUR, ISLAND), BASIC))
    yield "# No KEEP-ALIVE came for an hour."
    yield "overdue"
    yield sent(keep_alive(0x26))
    yield "overdue"
    yield "# The island's cell fails, and comes back without its messages."
    yield "lose 1 0"
    yield f"periods {HOUR // 2}"
    yield "return 1 0 lost"
    yield "# The noon ferry is cancelled: another notice takes the place of the first. The island has the first no more."
    yield sent(write_replace(FERRY, 0x1020, 0x1010, cells(), BASIC, 32, 0, "No ferry at 12:00", "Next ferry at 15:30"))
    yield sent(write_replace(FERRY, 0x1020, None, cells(ISLAND), BASIC, 32, 0, "No ferry at 12:00", "Next ferry at 15:30"))
    yield f"periods {2 * HOUR}"
    yield "# A weather notice with a page too many for its number is faulty."
    yield sent(
        message(
            0x01,
            two(0x0E, WEATHER),
            two(0x03, 0x1010),
            cells(TOWN),
            bytes([0x12, BASIC, 0x05, 0x02]),
            two(0x06, 32),
            two(0x07, 0),
            bytes([0x13, 1, 0x0C, 0x44]),
            page("Gale warning"),
            page("from the west"),
        )
    )
    yield sent(write_replace(WEATHER, 0x1010, None, cells(), BASIC, 32, 0, "Gale warning from the west"))
    yield f"periods {HOUR}"
    yield "# The gale has gone: another notice takes the place of the warning in all cells. The harbour's cell fails, and keeps its messages."
    yield sent(write_replace(WEATHER, 0x1020, 0x1010, cells(), BASIC, 32, 0, "The gale has gone"))
    yield "lose 1 2"
    yield f"periods {HOUR}"
    yield "return 1 2 available"
    yield "# Evening: the road notice is taken back everywhere, and the town's cell is reset."
    yield sent(kill(ROAD, 0x1010, cells(HARBOUR, TOWN), EXTENDED))
    yield sent(reset(cells(TOWN)))
    yield "# The ferry notice is ended. In the town none stands any more."
    yield sent(kill(FERRY, 0x1020, cells(), BASIC))
    yield f"periods {HOUR // 4}"
    yield "# The centre opens another link, so that the first is stale."
    yield "open"
    yield sent(query(WEATHER, 0x1020, cells(), BASIC))
    yield "announce 2"
    yield "shut 1"
    yield "shut 2"
    yield "# The figures of the harbour come last: what its replies told is not what its site counted."
    yield "figures"


def drill():
    yield bytes.fromhex("03 04 0101 0001 0101 0002 0202 0007 01 03 03")
    yield reset(cells())
    yield keep_alive(0x26)
    yield keep_alive(0x27)
    for serial in range(0x1010, 0x10A0, 0x10):
        yield write_replace(FERRY, serial, None, cells(HARBOUR), BASIC, 1, 0, "notice")
    yield kill(FERRY, 0x1013, cells(), BASIC)
    yield query(FERRY, 0x1020, cells(HARBOUR), BASIC)
    yield write_replace(FERRY, 0x1090, 0x1020, cells(), BASIC, 1, 0, "notice")
    yield write_replace(ROAD, 0x1010, None, cells(), EXTENDED, 1, 0, "notice")
    yield reset(cells(HARBOUR))
    # cut off: the drill ends here
    yield keep_alive(0x26)[:5]


def main():
    top = pathlib.Path(__file__).resolve().parents[2]
    wanted = {
        top / "crates" / "rehearse" / "stdin": ("\n".join(day()) + "\n").encode("ascii"),
        top / "crates" / "drill" / "stdin": b"".join(drill()),
    }
    for target, octets in wanted.items():
        if sys.argv[1:] != ["--check"]:
            target.write_bytes(octets)
        elif target.read_bytes() != octets:
            sys.exit(f"tests/rehearsals/make.py: {target.relative_to(top)} is not what this script writes")
    if sys.argv[1:] == ["--check"]:
        print("the built-in day and the built-in drill are the ones that their script writes")


main()
