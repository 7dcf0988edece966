#!/usr/bin/env python3
"""A second description of the controller, written apart from the code.

It shares nothing with the crates.  It says what the programs rehearse and drill
should write for an input, makes many random inputs, runs the programs on them
and compares.

Usage: compare.py [COUNT [START]]

COUNT scripts go to rehearse and COUNT inputs to drill.  The first difference
is printed with the input that shows it, made as small as leaving out lines can
make it, and the exit status is then 1.
"""

import os
import random
import subprocess
import sys

HERE = os.path.dirname(os.path.abspath(__file__))
REHEARSE = os.path.join(HERE, "../../crates/rehearse/out/rehearse")
DRILL = os.path.join(HERE, "../../crates/drill/out/drill")
BUILT_IN_FILE = bytes.fromhex("020401010001010100020103")

LONGEST = 2048
MOST_OPENINGS = 65535
MOST_PERIODS = 2 ** 32 - 1
MOST_IN_CELL = 8
MOST_CONTENTS = 32

WRITE, KILL, QUERY, RESET, KEEP_ALIVE = 0x01, 0x04, 0x0A, 0x10, 0x16
RESTART, FAILURE, ERROR_INDICATION = 0x13, 0x14, 0x15

CONTENT_ID, OLD_ID, NEW_ID, CELLS_ID, CATEGORY_ID = 0x01, 0x02, 0x03, 0x04, 0x05
REPETITION_ID, REQUESTED_ID, COMPLETED_ID, FAILED_ID = 0x06, 0x07, 0x08, 0x09
CAUSE_ID, SCHEME_ID, RECOVERY_ID, IDENTIFIER_ID = 0x0B, 0x0C, 0x0D, 0x0E
EMERGENCY_ID, CHANNEL_ID, PAGES_ID, PERIOD_ID = 0x0F, 0x12, 0x13, 0x18

ENTRY_WIDTHS = {1: 4, 2: 2, 5: 2, 6: 0}
CHANNEL_NAMES = ["basic", "extended"]


class Refused(Exception):
    """A call is refused; the number says why."""

    def __init__(self, number):
        super().__init__(number)
        self.number = number


class Fault(Exception):
    """A message is faulty."""

    def __init__(self, cause, layer, place):
        super().__init__(cause, layer, place)
        self.cause = cause
        self.layer = layer
        self.place = place


# Reading requests


class Reader:
    """Walks over the elements of one whole message."""

    def __init__(self, octets):
        self.octets = octets
        self.place = 4

    def stands(self, identifier):
        return self.place < len(self.octets) and self.octets[self.place] == identifier

    def must_stand(self, identifier):
        if self.stands(identifier):
            return
        if self.place == len(self.octets):
            raise Fault(0x05, 2, self.place)
        found = self.octets[self.place]
        if identifier == CHANNEL_ID and found == EMERGENCY_ID:
            raise Fault(0x00, 2, self.place)
        if 0x01 <= found <= 0x18:
            raise Fault(0x05, 2, self.place)
        raise Fault(0x00, 2, self.place)

    def must_fit(self, size):
        if self.place + size > len(self.octets):
            raise Fault(0x01, 2, self.place)

    def value(self, identifier, width):
        """An element with a value of a fixed width; gives the value's octets."""
        self.must_stand(identifier)
        self.must_fit(1 + width)
        start = self.place + 1
        self.place = start + width
        return self.octets[start:start + width]

    def number(self, identifier, width, lowest, highest):
        place = self.place + 1
        number = int.from_bytes(self.value(identifier, width), "big")
        if not lowest <= number <= highest:
            raise Fault(0x01, 3, place)
        return number

    def content(self):
        place = self.place + 1
        octets = self.value(CONTENT_ID, 83)
        if not 1 <= octets[0] <= 82:
            raise Fault(0x01, 3, place)

    def cell_list(self):
        """Gives the discriminator and the entries."""
        self.must_stand(CELLS_ID)
        self.must_fit(3)
        first = self.place
        length = int.from_bytes(self.octets[first + 1:first + 3], "big")
        self.must_fit(3 + length)
        if length == 0:
            raise Fault(0x01, 3, first + 1)
        discriminator = self.octets[first + 3]
        if discriminator not in ENTRY_WIDTHS:
            raise Fault(0x01, 3, first + 3)
        body = self.octets[first + 4:first + 3 + length]
        self.place = first + 3 + length
        width = ENTRY_WIDTHS[discriminator]
        if width == 0:
            if body:
                raise Fault(0x01, 3, first + 1)
            return discriminator, [b""]
        if len(body) % width or not 1 <= len(body) // width <= 128:
            raise Fault(0x01, 3, first + 1)
        entries = [body[i:i + width] for i in range(0, len(body), width)]
        return discriminator, entries

    def end(self):
        if self.place < len(self.octets):
            raise Fault(0x00, 2, self.place)


class Request:
    """What a request says; fields that a kind lacks stay None."""

    def __init__(self, kind):
        self.kind = kind
        self.identifier = None
        self.new = None
        self.old = None
        self.cells = None
        self.channel = None
        self.repetition = None
        self.requested = None
        self.code = None


def read_write(reader, request):
    request.identifier = reader.value(IDENTIFIER_ID, 2)
    request.new = reader.value(NEW_ID, 2)
    if reader.stands(OLD_ID):
        request.old = reader.value(OLD_ID, 2)
    request.cells = reader.cell_list()
    request.channel = reader.number(CHANNEL_ID, 1, 0, 1)
    reader.number(CATEGORY_ID, 1, 0, 2)
    request.repetition = reader.number(REPETITION_ID, 2, 1, 4095)
    request.requested = reader.number(REQUESTED_ID, 2, 0, 65535)
    pages = reader.number(PAGES_ID, 1, 1, 15)
    reader.value(SCHEME_ID, 1)
    for _ in range(pages):
        reader.content()


def read_old(reader, request):
    request.identifier = reader.value(IDENTIFIER_ID, 2)
    request.old = reader.value(OLD_ID, 2)
    request.cells = reader.cell_list()
    request.channel = reader.number(CHANNEL_ID, 1, 0, 1)


def read_request(octets):
    request = Request(octets[0])
    reader = Reader(octets)
    if request.kind == WRITE:
        read_write(reader, request)
    elif request.kind in (KILL, QUERY):
        read_old(reader, request)
    elif request.kind == RESET:
        request.cells = reader.cell_list()
    elif request.kind == KEEP_ALIVE:
        request.code = reader.number(PERIOD_ID, 1, 1, 38)
    else:
        raise Fault(0x04, 1, 0)
    reader.end()
    return request


def keep_alive_seconds(code):
    if code <= 10:
        return code
    if code <= 20:
        return 10 + 2 * (code - 10)
    return 30 + 5 * (code - 20)


# Writing


def sent(kind, *elements):
    body = b"".join(elements)
    return bytes([kind]) + len(body).to_bytes(3, "big") + body


def listed(identifier, body):
    return bytes([identifier]) + len(body).to_bytes(2, "big") + body


def cells_element(identities):
    if not identities:
        return b""
    return listed(CELLS_ID, b"\x01" + b"".join(identities))


def failed_element(failures):
    """Each failure is discriminator, entry and cause."""
    if not failures:
        return b""
    body = b"".join(bytes([d]) + entry + bytes([cause]) for d, entry, cause in failures)
    return listed(FAILED_ID, body)


def completed_element(completed):
    """Each completed entry is an identity and a count."""
    if not completed:
        return b""
    body = b"\x01"
    for identity, count in completed:
        shown = min(count, 65535)
        body += identity + shown.to_bytes(2, "big") + bytes([1 if count > 65535 else 0])
    return listed(COMPLETED_ID, body)


# The site


class Site:
    """Counts broadcasts; the room is one for all cells, or one for each."""

    def __init__(self, capacity, shared):
        self.capacity = capacity
        self.shared = shared
        self.closed = set()
        self.rooms = [0] * 64
        self.counts = {}

    def start_period(self):
        self.rooms = [self.capacity] * 64

    def broadcast(self, cell, channel):
        if cell in self.closed or self.rooms[cell] == 0:
            return False
        self.counts[cell, channel] = self.counts.get((cell, channel), 0) + 1
        if self.shared:
            self.rooms = [room - 1 for room in self.rooms]
        else:
            self.rooms[cell] -= 1
        return True


# The book


class Book:
    """Knows only the octets that were sent."""

    def __init__(self, identities):
        self.identities = identities
        self.standing = [[] for _ in identities]
        self.told = {}
        self.excepted = set()

    def number(self, identity):
        return self.identities.index(identity)

    def elements(self, octets):
        found = {}
        place = 4
        sizes = {IDENTIFIER_ID: 3, NEW_ID: 3, OLD_ID: 3}
        while place < len(octets):
            identifier = octets[place]
            if identifier in (CELLS_ID, COMPLETED_ID, FAILED_ID):
                size = 3 + int.from_bytes(octets[place + 1:place + 3], "big")
                found[identifier] = octets[place + 3:place + size]
            else:
                size = sizes.get(identifier, 2)
                found[identifier] = octets[place + 1:place + size]
            place += size
        return found

    def cell_list(self, found):
        body = found.get(CELLS_ID, b"\x01")[1:]
        return [self.number(body[i:i + 4]) for i in range(0, len(body), 4)]

    def completed_list(self, found):
        body = found.get(COMPLETED_ID, b"\x01")[1:]
        entries = [body[i:i + 7] for i in range(0, len(body), 7)]
        return [(self.number(e[:4]), int.from_bytes(e[4:6], "big"), e[6]) for e in entries]

    def failed_cells(self, found):
        body = found.get(FAILED_ID, b"")
        cells = set()
        place = 0
        while place < len(body):
            width = ENTRY_WIDTHS[body[place]]
            if body[place] == 1 and body[place + 1:place + 5] in self.identities:
                cells.add(self.number(body[place + 1:place + 5]))
            place += 2 + width
        return cells

    def read(self, octets):
        kind = octets[0]
        found = self.elements(octets)
        if kind == RESTART and found[RECOVERY_ID] == b"\x01":
            for cell in self.cell_list(found):
                self.standing[cell] = []
        if kind in (RESET + 1, RESET + 2):
            for cell in self.cell_list(found):
                self.standing[cell] = []
                self.excepted.add(cell)
        if kind in (KILL + 1, KILL + 2, WRITE + 1, WRITE + 2):
            self.read_completed(found)
        if kind in (WRITE + 1, WRITE + 2):
            self.read_new(found)

    def read_completed(self, found):
        channel = found[CHANNEL_ID][0]
        for cell, count, info in self.completed_list(found):
            old = (channel, found[IDENTIFIER_ID], message_code(found[OLD_ID]))
            self.standing[cell] = [m for m in self.standing[cell]
                                   if (m[0], m[1], message_code(m[2])) != old]
            self.told[cell, channel] = self.told.get((cell, channel), 0) + count
            if info == 1:
                self.excepted.add(cell)

    def read_new(self, found):
        named = self.cell_list(found) + [cell for cell, _, _ in self.completed_list(found)]
        new = (found[CHANNEL_ID][0], found[IDENTIFIER_ID], found[NEW_ID])
        for cell in set(named) - self.failed_cells(found):
            self.standing[cell].append(new)


def message_code(serial):
    return int.from_bytes(serial, "big") >> 4


# The controller


class Message:
    """A message standing in one cell."""

    def __init__(self, request, content):
        self.channel = request.channel
        self.identifier = request.identifier
        self.serial = request.new
        self.repetition = request.repetition
        self.requested = request.requested
        self.content = content
        self.count = 0
        self.wait = 0

    def is_the(self, channel, identifier, serial):
        return ((self.channel, self.identifier, message_code(self.serial))
                == (channel, identifier, message_code(serial)))

    def is_due(self):
        return self.wait == 0 and (self.requested == 0 or self.count < self.requested)


class Answer:
    """The entries of one reply, collected while a cell list is handled."""

    def __init__(self):
        self.failures = []
        self.completed = []
        self.cells = []


class Controller:
    """The table, its site, its links and its book."""

    def __init__(self, cells, site):
        self.identities = [identity for identity, _ in cells]
        self.capabilities = [capability for _, capability in cells]
        self.messages = [[] for _ in cells]
        self.site = site
        self.book = Book(self.identities)
        self.openings = 0
        self.announced = False
        self.ever_announced = False
        self.periods = 0
        self.since_keep_alive = None
        self.seconds = 0
        self.next_content = 0

    def open(self):
        if self.openings == MOST_OPENINGS:
            raise Refused(6)
        self.openings += 1
        self.announced = False
        return self.openings

    def announce(self, link):
        if link != self.openings:
            raise Refused(5)
        recovery = b"\x0D\x00" if self.ever_announced else b"\x0D\x01"
        self.announced = True
        self.ever_announced = True
        return self.send(sent(RESTART, cells_element(self.identities), b"\x16\x00", recovery))

    def shut(self, link):
        if link == self.openings:
            self.announced = False

    def send(self, octets):
        self.book.read(octets)
        return octets

    def must_be_announced(self, link):
        if link != self.openings or not self.announced:
            raise Refused(5)

    def lose(self, link, cell):
        self.must_be_announced(link)
        if cell >= len(self.identities):
            raise Refused(8)
        if cell in self.site.closed:
            raise Refused(9)
        self.site.closed.add(cell)
        failure = failed_element([(1, self.identities[cell], 0x0A)])
        return self.send(sent(FAILURE, failure, b"\x16\x00"))

    def give_back(self, link, cell, lost):
        self.must_be_announced(link)
        if cell >= len(self.identities):
            raise Refused(8)
        if cell not in self.site.closed:
            raise Refused(9)
        self.site.closed.remove(cell)
        if lost:
            self.messages[cell] = []
            self.book.excepted.add(cell)
        recovery = b"\x0D\x01" if lost else b"\x0D\x00"
        named = cells_element([self.identities[cell]])
        return self.send(sent(RESTART, named, b"\x16\x00", recovery))

    def period(self):
        if self.periods == MOST_PERIODS:
            raise Refused(7)
        self.periods += 1
        if self.since_keep_alive is not None:
            self.since_keep_alive += 1
        self.site.start_period()
        for messages in self.messages:
            for message in messages:
                message.wait = max(message.wait - 1, 0)
        for cell, messages in enumerate(self.messages):
            for message in messages:
                if message.is_due() and self.site.broadcast(cell, message.channel):
                    message.count += 1
                    message.wait = message.repetition

    def overdue(self):
        if self.since_keep_alive is None:
            return False
        return self.since_keep_alive * 1883 > 3000 * self.seconds

    def message(self, link, octets):
        """Gives the reply and the fault, which may be None."""
        if len(octets) > LONGEST:
            raise Refused(3)
        if len(octets) < 4 or int.from_bytes(octets[1:4], "big") + 4 != len(octets):
            raise Refused(4)
        self.must_be_announced(link)
        try:
            request = read_request(octets)
        except Fault as fault:
            return self.send(sent(ERROR_INDICATION, bytes([CAUSE_ID, fault.cause]))), fault
        return self.send(self.reply(request)), None

    def reply(self, request):
        if request.kind == KEEP_ALIVE:
            self.since_keep_alive = 0
            self.seconds = keep_alive_seconds(request.code)
            return sent(KEEP_ALIVE + 1)
        answer = self.handle(request)
        kind = request.kind + (2 if answer.failures else 1)
        failures = failed_element(answer.failures)
        completed = completed_element(answer.completed)
        cells = cells_element(answer.cells)
        if request.kind == RESET:
            return sent(kind, failures, cells)
        channel = bytes([CHANNEL_ID, request.channel])
        names = bytes([IDENTIFIER_ID]) + request.identifier
        if request.new is not None:
            names += bytes([NEW_ID]) + request.new
        if request.old is not None:
            names += bytes([OLD_ID]) + request.old
        if request.kind == QUERY and failures:
            return sent(kind, names, failures, channel, completed)
        return sent(kind, names, failures, completed, cells, channel)

    def handle(self, request):
        answer = Answer()
        discriminator, entries = request.cells
        begun = []
        named = set()
        for entry in entries:
            cells = self.cells_of(discriminator, entry)
            if not cells:
                cause = 0x0F if discriminator == 5 else 0x03
                answer.failures.append((discriminator, entry, cause))
            for cell in cells:
                if cell not in named:
                    named.add(cell)
                    self.handle_cell(request, cell, answer, begun)
        return answer

    def cells_of(self, discriminator, entry):
        numbers = range(len(self.identities))
        if discriminator == 1:
            return [n for n in numbers if self.identities[n] == entry]
        if discriminator == 2:
            return [n for n in numbers if self.identities[n][2:] == entry][:1]
        if discriminator == 5:
            return [n for n in numbers if self.identities[n][:2] == entry]
        return list(numbers)

    def handle_cell(self, request, cell, answer, begun):
        identity = self.identities[cell]
        if request.kind == RESET:
            self.messages[cell] = []
            answer.cells.append(identity)
            return
        if request.kind == WRITE:
            cause = self.write(request, cell, answer, begun)
        else:
            cause = self.end_or_tell(request, cell, answer)
        if cause is not None:
            answer.failures.append((1, identity, cause))

    def find(self, cell, channel, identifier, serial):
        for message in self.messages[cell]:
            if message.is_the(channel, identifier, serial):
                return message
        return None

    def end_or_tell(self, request, cell, answer):
        old = self.find(cell, request.channel, request.identifier, request.old)
        if old is None:
            return 0x02
        answer.completed.append((self.identities[cell], old.count))
        if request.kind != QUERY:
            self.messages[cell].remove(old)
        return None

    def write(self, request, cell, answer, begun):
        if self.capabilities[cell] == 0:
            return 0x09
        if request.channel == 1 and self.capabilities[cell] != 3:
            return 0x0C
        if cell in self.site.closed:
            return 0x0A
        if request.old is not None:
            cause = self.end_or_tell(request, cell, answer)
            if cause is not None:
                return cause
        if self.find(cell, request.channel, request.identifier, request.new):
            return 0x0D
        if len(self.messages[cell]) == MOST_IN_CELL:
            return 0x07
        if not begun:
            if len(self.contents_in_use()) == MOST_CONTENTS:
                return 0x08
            self.next_content += 1
            begun.append(self.next_content)
        self.messages[cell].append(Message(request, begun[0]))
        answer.cells.append(self.identities[cell])
        return None

    def contents_in_use(self):
        return {message.content for messages in self.messages for message in messages}

    def figures(self):
        """Site's count, told, standing and excepted, for each cell and channel."""
        lines = []
        for cell, messages in enumerate(self.messages):
            by_table = sorted((m.channel, m.identifier, m.serial) for m in messages)
            assert by_table == sorted(self.book.standing[cell]), "book and table part"
            for channel, name in enumerate(CHANNEL_NAMES):
                standing = sum(m.count for m in messages if m.channel == channel)
                lines.append("figures %d %s: site %d told %d standing %d%s" % (
                    cell, name, self.site.counts.get((cell, channel), 0),
                    self.book.told.get((cell, channel), 0), standing,
                    " excepted" if cell in self.book.excepted else ""))
        return lines


def check_cells(octets):
    if len(octets) < 2:
        raise Refused(10)
    count = octets[0]
    if not 1 <= count <= 64 or octets[1] != 4:
        raise Refused(11)
    if len(octets) != 2 + 5 * count:
        raise Refused(10)
    identities = [octets[2 + 4 * i:6 + 4 * i] for i in range(count)]
    capabilities = list(octets[2 + 4 * count:])
    if len(set(identities)) != count:
        raise Refused(12)
    if any(capability not in (0, 1, 3) for capability in capabilities):
        raise Refused(13)
    return list(zip(identities, capabilities))


# What the programs should write


class Rehearsal:
    """Answers the lines of a script."""

    def __init__(self):
        self.cells = check_cells(BUILT_IN_FILE)
        self.frame = False
        self.controller = None
        self.links = {}
        self.written = []

    def start(self):
        if self.controller is None:
            site = Site(16, True) if self.frame else Site(512, False)
            self.controller = Controller(self.cells, site)
        return self.controller

    def line(self, number, text):
        words = text.split("#")[0].split()
        if not words:
            return
        makers = {"cells": self.cells_line, "site": self.site_line, "open": self.open_line,
                  "announce": self.announce_line, "message": self.message_line,
                  "periods": self.periods_line, "lose": self.lose_line,
                  "return": self.return_line, "shut": self.shut_line,
                  "overdue": self.overdue_line, "figures": self.figures_line}
        late = words[0] in ("cells", "site") and self.controller is not None
        if words[0] not in makers or late:
            self.written.append("line %d: " % number)
            return
        try:
            makers[words[0]](words)
        except Refused as refused:
            end = 1 if words[0] == "cells" else 2 if words[0] == "message" else len(words)
            self.put(words[:end], "refused %d" % refused.number)

    def put(self, words, result):
        self.written.append("%s: %s" % (" ".join(words), result))

    def put_octets(self, words, octets, more=""):
        self.put(words, octets.hex(" ").upper() + more)

    def cells_line(self, words):
        self.cells = check_cells(bytes.fromhex("".join(words[1:])))
        count = len(self.cells)
        self.put(words[:1], "1 cell" if count == 1 else "%d cells" % count)

    def site_line(self, words):
        self.frame = words[1] == "frame"
        self.put(words, "new")

    def open_line(self, words):
        link = self.start().open()
        self.links[link] = "waiting"
        self.put(words, "link %d" % link)

    def has(self, words, states, missing):
        """Whether the link named is in one of the states; says so if it is not."""
        self.start()
        if self.links.get(int(words[1])) in states:
            return True
        self.put(words[:2] if words[0] == "message" else words, missing)
        return False

    def announce_line(self, words):
        if self.has(words, ["waiting"], "no waiting link"):
            octets = self.controller.announce(int(words[1]))
            self.links[int(words[1])] = "open"
            self.put_octets(words, octets)

    def message_line(self, words):
        if not self.has(words, ["open"], "no open link"):
            return
        request = bytes.fromhex("".join(words[2:]))
        octets, fault = self.controller.message(int(words[1]), request)
        more = ""
        if fault:
            more = " fault %02X layer %d place %d" % (fault.cause, fault.layer, fault.place)
        self.put_octets(words[:2], octets, more)

    def periods_line(self, words):
        self.start()
        accepted = 0
        try:
            while accepted < int(words[1]):
                self.controller.period()
                accepted += 1
        except Refused as refused:
            self.put(words, "accepted %d refused %d" % (accepted, refused.number))
            return
        self.put(words, "accepted %d" % accepted)

    def lose_line(self, words):
        if self.has(words, ["open"], "no open link"):
            self.put_octets(words, self.controller.lose(int(words[1]), int(words[2])))

    def return_line(self, words):
        if self.has(words, ["open"], "no open link"):
            lost = words[3] == "lost"
            octets = self.controller.give_back(int(words[1]), int(words[2]), lost)
            self.put_octets(words, octets)

    def shut_line(self, words):
        if self.has(words, ["waiting", "open"], "no link"):
            self.controller.shut(int(words[1]))
            self.links[int(words[1])] = "used up"
            self.put(words, "done")

    def overdue_line(self, words):
        self.put(words, "yes" if self.start().overdue() else "no")

    def figures_line(self, words):
        self.written.extend(self.start().figures())


def expected_rehearsal(lines):
    rehearsal = Rehearsal()
    for number, text in enumerate(lines, 1):
        rehearsal.line(number, text)
    return rehearsal.written


def expected_drill(octets):
    end = 2 + 5 * octets[0] if octets else 0
    try:
        controller = Controller(check_cells(octets[:end]), Site(512, False))
    except Refused:
        return b""
    controller.announce(controller.open())
    link = controller.open()
    output = controller.announce(link)
    rest = octets[end:]
    while len(rest) >= 4:
        size = 4 + int.from_bytes(rest[1:4], "big")
        if size > LONGEST or size > len(rest):
            break
        output += controller.message(link, rest[:size])[0]
        rest = rest[size:]
    return output


# Random inputs


class Maker:
    """Makes random cell files and messages that meet one another."""

    def __init__(self, rng):
        self.rng = rng
        self.mood = rng.choice(["plain", "plain", "crowded", "contents", "large"])
        self.identifiers = [b"\x00\x32", b"\x00\x33"][:rng.randint(1, 2)]
        self.codes = {"plain": 4, "crowded": 14, "contents": 60, "large": 12}[self.mood]
        self.file = self.cell_file()
        self.written = []

    def cell_file(self):
        rng = self.rng
        count = rng.randint(1, 5)
        if self.mood == "contents":
            count = 5
        if self.mood == "large":
            count = rng.choice([6, 17, 33, 64])
        lacs, cis = (3, 4) if count <= 5 else (9, 9)
        places = [(lac, ci) for lac in range(1, lacs) for ci in range(1, cis)]
        if count > 5:
            places = [(lac, ci) for lac in range(1, 10) for ci in range(1, 10)]
        chosen = rng.sample(places, count)
        self.identities = [bytes([1, lac, 0, ci]) for lac, ci in chosen]
        kinds = [0, 1, 3, 3, 3] if self.mood == "plain" else [3] * 20 + [1, 0]
        capabilities = bytes(rng.choice(kinds) for _ in range(count))
        return bytes([count, 4]) + b"".join(self.identities) + capabilities

    def broken_file(self):
        rng = self.rng
        file = bytearray(self.file)
        way = rng.randrange(7)
        if way == 0:
            file[2:6] = file[-5 - len(self.identities) + 1:-len(self.identities)]
        elif way == 1:
            file[-1] = rng.choice([2, 4, 0xFF])
        elif way == 2:
            file[1] = rng.choice([0, 2, 3, 5])
        elif way == 3:
            file[0] = rng.choice([0, 65, 255, len(self.identities) + 1])
        elif way == 4:
            file = file[:rng.randrange(1, len(file))]
        elif way == 5:
            file.append(rng.choice([0, 1]))
        else:
            file[rng.randrange(len(file))] = rng.randrange(256)
        return bytes(file)

    def serial(self):
        code = self.rng.randrange(self.codes) + 0x101
        return (code * 16 + self.rng.choice([0, 0, 1, 15])).to_bytes(2, "big")

    def entry(self, discriminator):
        rng = self.rng
        identity = rng.choice(self.identities)
        if rng.random() < 0.12:
            identity = bytes([1, rng.randint(1, 12), 0, rng.randint(1, 12)])
        return {1: identity, 2: identity[2:], 5: identity[:2], 6: b""}[discriminator]

    def list_element(self):
        rng = self.rng
        choices = [1, 1, 2, 5, 6]
        if self.mood == "contents":
            choices = [1] * 12 + [2, 5, 6]
        discriminator = rng.choice(choices)
        count = rng.choice([1, 1, 1, 2, 3, 4])
        if self.mood == "contents" and rng.random() < 0.8:
            count = 1
        if rng.random() < 0.03:
            count = rng.choice([127, 128, 129, 200])
        if discriminator == 6:
            count = 0
        entries = b"".join(self.entry(discriminator) for _ in range(count))
        return listed(CELLS_ID, bytes([discriminator]) + entries)

    def channel(self):
        return bytes([CHANNEL_ID, self.rng.choice([0, 0, 1])])

    def named(self, identifier):
        return bytes([identifier]) + self.serial()

    def identifier(self):
        return bytes([IDENTIFIER_ID]) + self.rng.choice(self.identifiers)

    def old_elements(self):
        """Identifier, old serial number, list and channel, often of a message written."""
        rng = self.rng
        if not self.written or rng.random() < 0.3:
            return [self.identifier(), self.named(OLD_ID), self.list_element(), self.channel()]
        identifier, serial, cells, channel = rng.choice(self.written)
        if rng.random() < 0.4:
            cells = self.list_element()
        if rng.random() < 0.3:
            serial = serial[:1] + bytes([serial[1] ^ rng.randrange(16)])
        return [identifier, bytes([OLD_ID]) + serial, cells, channel]

    def write_names(self):
        """The elements of a write up to the channel."""
        rng = self.rng
        if rng.random() < (0.15 if self.mood == "contents" else 0.35):
            identifier, old, cells, channel = self.old_elements()
            new = self.named(NEW_ID)
            if rng.random() < 0.3:
                new = bytes([NEW_ID]) + old[1:]
            return [identifier, new, old, cells, channel]
        return [self.identifier(), self.named(NEW_ID), self.list_element(), self.channel()]

    def write_elements(self, names=None):
        rng = self.rng
        elements = names or self.write_names()
        self.written.append((elements[0], elements[1][1:], elements[-2], elements[-1]))
        elements.append(bytes([CATEGORY_ID, rng.randrange(3)]))
        repetition = 4095 if rng.random() < 0.02 else rng.randint(1, 4)
        requested = rng.choice([0, 0, 1, 2, 3, 5, 9])
        if rng.random() < 0.02:
            requested = 65535
        pages = rng.choice([1] * 20 + [2, 3, 15])
        elements.append(bytes([REPETITION_ID]) + repetition.to_bytes(2, "big"))
        elements.append(bytes([REQUESTED_ID]) + requested.to_bytes(2, "big"))
        elements += [bytes([PAGES_ID, pages]), bytes([SCHEME_ID, rng.randrange(256)])]
        for _ in range(pages):
            size = rng.choice([1, 40, 81, 82])
            elements.append(bytes([CONTENT_ID, size]) + bytes([rng.randrange(256)]) * 82)
        return elements

    def elements(self, kind):
        if kind == WRITE:
            return self.write_elements()
        if kind == RESET:
            return [self.list_element()]
        if kind == KEEP_ALIVE:
            return [bytes([PERIOD_ID, self.rng.choice([1, 2, 3, 9, 10, 11, 12, 20, 21, 37, 38])])]
        return self.old_elements()

    def filling(self):
        """Writes that nearly fill the contents or the cells."""
        if self.mood == "contents":
            lists = [b"\x01" + self.identities[n % 5] for n in range(self.rng.randint(29, 33))]
        elif self.mood == "crowded":
            lists = [b"\x06"] * self.rng.randint(6, 8)
        else:
            return []
        made = []
        for number, cells in enumerate(lists):
            serial = ((0x101 + number) * 16).to_bytes(2, "big")
            names = [self.identifier(), bytes([NEW_ID]) + serial,
                     listed(CELLS_ID, cells), self.channel()]
            made.append(sent(WRITE, *self.write_elements(names)))
        return made

    def message(self, faults=0.2):
        rng = self.rng
        weights = [8, 3, 3, 0.4, 0.7]
        if self.mood in ("contents", "crowded"):
            weights = [12, 3, 2, 0.1, 0.3]
        kind = rng.choices([WRITE, KILL, QUERY, RESET, KEEP_ALIVE], weights)[0]
        elements = self.elements(kind)
        if rng.random() >= faults:
            return sent(kind, *elements)
        for _ in range(rng.choice([1, 1, 1, 2])):
            kind, elements = self.spoil(kind, elements)
        return sent(kind, *elements)

    def spoil(self, kind, elements):
        way = self.rng.choice([self.spoil_kind, self.spoil_order, self.spoil_identifier,
                               self.spoil_end, self.spoil_value, self.spoil_value,
                               self.spoil_list, self.spoil_list, self.spoil_channel,
                               self.spoil_octet])
        return way(kind, [bytearray(element) for element in elements if element])

    def spoil_kind(self, kind, elements):
        return self.rng.choice([0, 2, 3, 5, 7, 8, 0x0B, 0x0D, 0x11, 0x13, 0x15, 0x17, 0x18,
                                0xFF, WRITE, KILL, QUERY, RESET, KEEP_ALIVE]), elements

    def spoil_order(self, kind, elements):
        rng = self.rng
        if not elements:
            return kind, elements
        place = rng.randrange(len(elements))
        way = rng.randrange(3)
        if way == 0:
            del elements[place]
        elif way == 1:
            elements.insert(place, elements[rng.randrange(len(elements))][:])
        else:
            rng.shuffle(elements)
        return kind, elements

    def spoil_identifier(self, kind, elements):
        if elements:
            element = self.rng.choice(elements)
            element[0] = self.rng.choice([0, 1, 2, 4, 0x0F, 0x10, 0x17, 0x18, 0x19, 0x80, 0xFF])
        return kind, elements

    def spoil_end(self, kind, elements):
        rng = self.rng
        body = b"".join(elements)
        if rng.random() < 0.5 and body:
            body = body[:rng.randrange(len(body))]
        else:
            body += bytes(rng.choice([0, 1, 0x0F, 0x12, 0x7F, 0xFF])
                          for _ in range(rng.choice([1, 2, 3, 84])))
        return kind, [bytearray(body)]

    def spoil_value(self, kind, elements):
        rng = self.rng
        short = [e for e in elements if len(e) in (2, 3, 84) and e[0] in (
            CHANNEL_ID, CATEGORY_ID, REPETITION_ID, PAGES_ID, CONTENT_ID, PERIOD_ID)]
        if short:
            element = rng.choice(short)
            if element[0] == REPETITION_ID:
                element[1:] = rng.choice([b"\x00\x00", b"\x10\x01", b"\xF0\x00", b"\x80\x04"])
            else:
                element[1] = rng.choice([0, 1, 2, 3, 0x10, 0x11, 16, 39, 53, 82, 83, 84, 0xFF])
        return kind, elements

    def spoil_list(self, kind, elements):
        rng = self.rng
        lists = [e for e in elements if e[0] == CELLS_ID and len(e) > 3]
        if not lists:
            return kind, elements
        element = rng.choice(lists)
        way = rng.randrange(5)
        length = len(element) - 3
        if way == 0:
            length = rng.choice([0, 1, length + 1, length - 1, length + 2, 0xFFFF, 2048])
        elif way == 1:
            element[3] = rng.choice([0, 1, 2, 3, 4, 5, 6, 7, 0x11, 0x12, 0x16, 0x81, 0xFF])
        elif way == 2:
            element += bytes(rng.randint(1, 4))
            length = len(element) - 3
        elif way == 3:
            del element[rng.choice([3, 4]):]
            length = len(element) - 3
        else:
            element += bytes(element[4:])[:8] * 130
            length = len(element) - 3
        element[1:3] = min(length, 0xFFFF).to_bytes(2, "big")
        return kind, elements

    def spoil_channel(self, kind, elements):
        for place, element in enumerate(elements):
            if element[0] == CHANNEL_ID:
                elements[place] = bytearray([EMERGENCY_ID, self.rng.choice([0, 1, 2])])
                if self.rng.random() < 0.3:
                    del elements[place][1]
        return kind, elements

    def spoil_octet(self, kind, elements):
        if elements:
            element = self.rng.choice(elements)
            element[self.rng.randrange(min(len(element), 4))] = self.rng.choice(
                [0, 1, 5, 6, 0x12, 0x13, self.rng.randrange(256)])
        return kind, elements


def spoil_frame(rng, octets):
    """A message that is refused as a whole."""
    way = rng.randrange(4)
    if way == 0:
        return octets[:rng.randrange(1, len(octets))]
    if way == 1:
        return octets + bytes(rng.randint(1, 3))
    if way == 2:
        return octets[:1] + rng.randrange(4000).to_bytes(3, "big") + octets[4:]
    return sent(octets[0], bytes(rng.choice([2043, 2044, 2045, 3000])))


def spaced(rng, octets):
    text = octets.hex(" ").upper()
    return text if rng.random() < 0.7 else text.replace(" ", "").lower()


class ScriptMaker:
    """Makes one random script for rehearse."""

    def __init__(self, rng):
        self.rng = rng
        self.maker = Maker(rng)
        self.links = 0
        self.lost = []
        self.lines = []

    def make(self):
        rng = self.rng
        self.heading()
        self.lines.append("open")
        self.links = 1
        self.lines.append("announce 1")
        sizes = {"plain": 30, "crowded": 40, "contents": 90, "large": 40}
        if rng.random() < 0.7:
            for octets in self.maker.filling():
                self.lines.append("message 1 " + spaced(rng, octets))
        for _ in range(rng.randint(5, sizes[self.maker.mood])):
            self.step()
        self.lines.append("figures")
        self.lines.append("overdue")
        return self.lines

    def heading(self):
        rng = self.rng
        if rng.random() < 0.1:
            self.lines.append("cells " + spaced(rng, self.maker.broken_file()))
        if rng.random() < 0.95:
            self.lines.append("cells " + spaced(rng, self.maker.file))
        if rng.random() < 0.8:
            self.lines.append("site " + rng.choice(["drill", "frame", "frame"]))
        if rng.random() < 0.1:
            self.lines.append(rng.choice(["announce 1", "shut 1", "message 1 16 00 00 02 18 26",
                                          "periods 2", "lose 1 0", "figures", "overdue"]))

    def link(self):
        rng = self.rng
        if rng.random() < 0.96:
            return self.links
        return rng.choice([1, max(self.links - 1, 1), self.links + 1, rng.randint(1, 9)])

    def step(self):
        rng = self.rng
        steps = [self.message, self.periods, self.lose, self.give_back, self.reopen,
                 self.link_call, self.question, self.oddity]
        step = rng.choices(steps, [60, 14, 2.5, 3.5, 1, 1, 6, 1.5])[0]
        step()

    def message(self):
        rng = self.rng
        octets = self.maker.message()
        if rng.random() < 0.03:
            octets = spoil_frame(rng, octets)
        self.lines.append("message %d %s" % (self.link(), spaced(rng, octets)))

    def periods(self):
        count = self.rng.randint(1, 20)
        if self.rng.random() < 0.01:
            count = 200
        self.lines.append("periods %d" % count)

    def cell(self):
        count = len(self.maker.identities)
        return self.rng.randint(0, count if self.rng.random() < 0.15 else count - 1)

    def lose(self):
        cell = self.cell()
        self.lost.append(cell)
        self.lines.append("lose %d %d" % (self.link(), cell))

    def give_back(self):
        way = self.rng.choice(["available", "lost"])
        cell = self.cell()
        if self.lost and self.rng.random() < 0.85:
            cell = self.lost.pop()
        self.lines.append("return %d %d %s" % (self.link(), cell, way))

    def reopen(self):
        rng = self.rng
        if rng.random() < 0.3:
            self.lines.append("shut %d" % self.links)
            if rng.random() < 0.4:
                self.message()
        self.lines.append("open")
        self.links += 1
        if rng.random() < 0.3:
            self.step()
        self.lines.append("announce %d" % self.links)

    def link_call(self):
        rng = self.rng
        word = rng.choice(["announce", "shut"])
        link = rng.choice([self.links + 1, rng.randint(1, self.links)])
        if word == "shut" and link == self.links and rng.random() < 0.7:
            link += 1
        self.lines.append("%s %d" % (word, link))

    def question(self):
        self.lines.append(self.rng.choice(["figures", "overdue", "overdue"]))

    def oddity(self):
        self.lines.append(self.rng.choice([
            "# a comment", "", "   ", "frobnicate 1", "overdue # behind a comment",
            "cells 01 04 01 01 00 01 03", "site frame", "periods 0"]))


def random_drill(rng):
    maker = Maker(rng)
    file = maker.broken_file() if rng.random() < 0.08 else maker.file
    sizes = {"plain": 20, "crowded": 40, "contents": 70, "large": 30}
    messages = maker.filling() if rng.random() < 0.7 else []
    messages += [maker.message() for _ in range(rng.randint(0, sizes[maker.mood]))]
    if rng.random() < 0.1:
        messages.insert(rng.randrange(len(messages) + 1), spoil_frame(rng, maker.message()))
    octets = file + b"".join(messages)
    if rng.random() < 0.15:
        octets = octets[:rng.randrange(len(octets) + 1)]
    return octets


def edge_write(channel=0, requested=0, repetition=1, old=b""):
    """A line that writes one message, serial number 10 10 or 10 20, in all cells."""
    new = b"\x03\x10\x20" if old else b"\x03\x10\x10"
    octets = sent(WRITE, b"\x0E\x00\x32", new, old, listed(CELLS_ID, b"\x06"),
                  bytes([CHANNEL_ID, channel, CATEGORY_ID, 2]),
                  bytes([REPETITION_ID]) + repetition.to_bytes(2, "big"),
                  bytes([REQUESTED_ID]) + requested.to_bytes(2, "big"),
                  bytes([PAGES_ID, 1, SCHEME_ID, 0, CONTENT_ID, 82]), b"A" * 82)
    return "message 1 " + octets.hex(" ").upper()


def edge_scripts():
    """Scripts at limits that random ones do not reach."""
    begin = ["open", "announce 1", edge_write()]
    tell = ["message 1 0A 00 00 0C 0E 00 32 02 10 10 04 00 01 06 12 00", "figures",
            "message 1 04 00 00 0C 0E 00 32 02 10 10 04 00 01 06 12 00", "figures"]
    replace = edge_write(old=b"\x02\x10\x10")
    openings = ["open"] * 65537 + ["announce 65534", "announce 65535", "announce 65535",
                                   "shut 65534", "shut 65535", "open"]
    return [begin + ["periods 65535"] + tell, begin + ["periods 65536"] + tell,
            begin + ["periods 65536", replace, "figures", "periods 3", "figures"],
            begin + ["lose 1 1", "periods 65536", "return 1 1 available"] + tell,
            ["site frame"] + begin + ["periods 65536"] + tell,
            begin[:2] + [edge_write(requested=65535), "periods 65534", "figures",
                         "periods 3"] + tell,
            begin[:2] + [edge_write(repetition=4095), "periods 4095", "figures", "periods 1",
                         "figures"],
            begin[:2] + [edge_write(1), "periods 65540", "figures"] + tell,
            openings]


def plain_requests():
    """One request of each kind, with lists of each form."""
    names = b"\x0E\x00\x32\x03\x10\x10"
    rest = bytes.fromhex("1200050106000207000313010C0F0152") + b"A" * 82
    two = listed(CELLS_ID, bytes.fromhex("010101000101010002"))
    by_cell = listed(CELLS_ID, bytes.fromhex("0200010009"))
    by_area = listed(CELLS_ID, bytes.fromhex("050101"))
    every = listed(CELLS_ID, b"\x06")
    old = b"\x02\x10\x10"
    return [sent(WRITE, names, two, rest), sent(WRITE, names, old, every, rest),
            sent(KILL, names[:3], old, by_cell, rest[:2]),
            sent(QUERY, names[:3], old, by_area, rest[:2]),
            sent(RESET, two), sent(RESET, every), sent(KEEP_ALIVE, b"\x18\x05")]


def spoilt_scripts():
    """Each request with each octet changed, left out, put in or cut off behind."""
    scripts = []
    for request in plain_requests():
        spoilt = [request]
        places = [n for n in range(len(request)) if n < 60 or n > len(request) - 3]
        for place in places:
            for value in range(256):
                spoilt.append(request[:place] + bytes([value]) + request[place + 1:])
        for place in places[4:] + [len(request)]:
            spoilt.append(sent(request[0], request[4:place]))
            spoilt.append(sent(request[0], request[4:place], request[place + 1:]))
            for value in range(32):
                spoilt.append(sent(request[0], request[4:place], bytes([value]), request[place:]))
        for place in range(5):
            spoilt.append(request[:place])
        lines = ["message 1 " + octets.hex(" ").upper() for octets in spoilt if octets]
        scripts.append(["open", "announce 1"] + lines + ["figures"])
    return scripts


def cell_file_script():
    """A cell file with each octet changed, cut off behind each and made longer."""
    file = bytes.fromhex("0304 01010001 01010002 01020001 000103")
    files = [file[:size] for size in range(1, len(file))]
    files += [file + bytes(more) for more in range(1, 8)]
    for place in range(len(file)):
        for value in range(256):
            files.append(file[:place] + bytes([value]) + file[place + 1:])
    most = bytes([64, 4]) + b"".join(bytes([1, 1, 2, n]) for n in range(64)) + b"\x03" * 64
    more = bytes([65, 4]) + b"".join(bytes([1, 1, 2, n]) for n in range(65)) + b"\x03" * 65
    twice_and_bad = file[:6] + file[2:6] + file[10:-1] + b"\x02"
    files += [more, twice_and_bad, twice_and_bad + b"\x00", most]
    return ["cells " + octets.hex(" ").upper() for octets in files] + ["open", "announce 1"]


def overdue_scripts():
    """Each keep-alive code, asked about after each period."""
    scripts = []
    for code in range(1, 39):
        lines = ["open", "announce 1", "periods 5", "message 1 16 00 00 02 18 %02X" % code]
        for _ in range(2 * keep_alive_seconds(code)):
            lines += ["overdue", "periods 1"]
        lines += ["message 1 16 00 00 02 18 00", "shut 1", "overdue", "open", "announce 2",
                  "overdue", "message 2 16 00 00 02 18 %02X" % code, "overdue"]
        scripts.append(lines)
    return scripts


# Running and comparing


def without_reasons(lines):
    """Lines that could not be understood keep their number and lose the reason."""
    kept = []
    for line in lines:
        words = line.split(" ")
        if words[0] == "line" and len(words) > 2 and words[1].endswith(":"):
            line = " ".join(words[:2]) + " "
        kept.append(line)
    return kept


def run_rehearse(lines):
    done = subprocess.run([REHEARSE], input="".join(line + "\n" for line in lines),
                          capture_output=True, text=True, check=False)
    return [line for line in done.stdout.splitlines() if not line.startswith("  ")]


def script_difference(lines):
    """None, or the first lines that differ: expected, written."""
    expected = without_reasons(expected_rehearsal(lines))
    written = without_reasons(run_rehearse(lines))
    for number in range(max(len(expected), len(written))):
        left = expected[number] if number < len(expected) else "(nothing)"
        right = written[number] if number < len(written) else "(nothing)"
        if left != right:
            return left, right
    return None


def smaller(items, differs):
    """Leaves out pieces as long as the difference stays."""
    size = max(len(items) // 2, 1)
    while size >= 1:
        place = 0
        while place < len(items):
            rest = items[:place] + items[place + size:]
            if differs(rest):
                items = rest
            else:
                place += size
        size //= 2
    return items


def compare_script(lines):
    if script_difference(lines) is None:
        return True
    lines = smaller(lines, lambda rest: script_difference(rest) is not None)
    left, right = script_difference(lines)
    print("a script differs:")
    print("\n".join(lines))
    print("expected: " + left)
    print("written:  " + right)
    return False


def compare_drill(octets):
    done = subprocess.run([DRILL], input=octets, capture_output=True, check=False)
    expected = expected_drill(octets)
    if done.stdout == expected and done.returncode == 0:
        return True
    print("a drill differs:")
    print(octets.hex(" ").upper())
    print("expected: " + expected.hex(" ").upper())
    print("written:  " + done.stdout.hex(" ").upper())
    print("status:   %d" % done.returncode)
    return False


def main():
    count = int(sys.argv[1]) if len(sys.argv) > 1 else 200
    start = int(sys.argv[2]) if len(sys.argv) > 2 else 1
    for program in (REHEARSE, DRILL):
        if not os.path.exists(program):
            print("not built: " + os.path.normpath(program))
            return 0
    scripts = edge_scripts() + spoilt_scripts() + overdue_scripts() + [cell_file_script()]
    for lines in scripts:
        if not compare_script(lines):
            return 1
    for place in range(count):
        rng = random.Random("%d/%d" % (start, place))
        if not compare_script(ScriptMaker(rng).make()) or not compare_drill(random_drill(rng)):
            print("start %d, place %d" % (start, place))
            return 1
    print("%d scripts and %d drills: the same" % (count + len(scripts), count))
    return 0


if __name__ == "__main__":
    sys.exit(main())
