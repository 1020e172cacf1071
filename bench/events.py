#!/usr/bin/env python3
"""Writes a realistic list of events for measuring: sessions of a workshop that loads a control unit, one after another.

Each session starts fast or slow, sets new timing, loads blocks of data, reads some values, and stops; a tick comes now and then, and now and
then a byte is lost. With the word cars they are sessions with ISO 9141-2 cars, the key bytes 08 08 and 94 94 in turn: each asks what there is
to read, reads values, one unit or two answering, then the trouble codes, and ends in a drop or after 5 s without a request.

Three numbers of 64 bits an event, lowest byte first: value, side and kind (by their letters) in the lowest bytes of the first, then start and
end; or, with the word text, a line an event as the listing program reads them. The events are written as they are made up, so that no number
of them takes more memory.

Use: bench/events.py N [cars] [text] > FILE (N events and the rest of their session, and the digest of their reports on standard error)
"""

import os
import struct
import sys

sys.path.insert(0, os.path.join(os.path.dirname(os.path.abspath(__file__)), "..", "tests"))
from link_reference import CAR_KEYS, HEADS, Dice, Link  # noqa: E402
from make_lists import line  # noqa: E402


def numbers(event):
    kind, side, value, start, end = event
    return struct.pack("<QQQ", value | (ord(side) if side else 0) << 8 | ord(kind) << 16, start, end)


def text(event):
    return line(event) + b"\n"


class Workshop:
    def __init__(self, write, form):
        self.write, self.form = write, form
        self.dice, self.link, self.events, self.digest = Dice(14230), Link(), 0, 0

    def send(self, kind, side, value, start, end):
        event = (kind, side, value, start, end)
        no, reports = self.link.event(*event)
        assert no == 0
        for number, reason, first, n, time in reports:
            for x in (number, reason, first, n, time):
                self.digest = (self.digest * 31 + x) % 2**32
        self.write(self.form(event))
        self.events += 1

    def byte(self, side, value, gap, since=None):
        start = max((self.link.mark if since is None else since) + gap, self.link.clock)
        self.send("B", side, value, start, start + 960)

    def start(self):
        at = max(self.link.mark + 320_000, self.link.clock)
        if self.dice.one_in(2):
            self.send("W", "", 0, at, at + 25_000)
            request, reply = [0x81, 0x11, 0xF1, 0x81], [0x83, 0xF1, 0x11, 0xC1, 0xEF, 0x8F]
            for i, value in enumerate(request + [sum(request) % 256]):
                self.byte("t", value, 5_000 if i else 50_000, None if i else at)
            for i, value in enumerate(reply + [sum(reply) % 256]):
                self.byte("e", value, 0 if i else 30_000)
        else:
            self.slow_start(at, 0xEF, 0x8F)

    def slow_start(self, at, kb1, kb2):
        self.send("A", "", 0x33, at, at + 2_000_000)
        for side, value, gap in (("e", 0x55, 100_000), ("e", kb1, 10_000), ("e", kb2, 5_000), ("t", 255 - kb2, 30_000), ("e", 0xCC, 30_000)):
            self.byte(side, value, gap)

    def message(self, side, data, gap):
        head = [0x80 + len(data)] if len(data) < 64 else [0x80]
        head += [0x11, 0xF1] if side == "t" else [0xF1, 0x11]
        head += [len(data)] if len(data) > 63 else []
        self.say(side, head + data, gap)

    def say(self, side, frame, gap):
        """A frame with its checksum behind it; whether no byte was lost."""
        d = self.dice
        if d.one_in(40):
            tick = max(self.link.mark + gap // 2, self.link.clock)
            self.send("T", "", 0, tick, tick)
        lost = d.below(len(frame)) if d.one_in(200) else None
        for i, value in enumerate(frame + [sum(frame) % 256]):
            if i != lost:
                self.byte(side, value, gap if i == 0 else 5_000 if side == "t" else 0)
        if lost is not None:
            self.send("T", "", 0, self.link.mark + 60_000, self.link.mark + 60_000)
        return lost is None

    def exchange(self, asked, given):
        quick = self.link.windows[2] < 55_000
        self.message("t", asked, 10_000 if quick else 60_000)
        if self.link.awaited == "first":
            self.message("e", given, 10_000 if quick else 30_000)

    def session(self):
        d = self.dice
        self.start()
        self.exchange([0x83, 0x03, 0x00, 0x28, 0x0B, 0x14, 0x0A], [0xC3, 0x03])
        for _ in range(20):
            block = [0x36] + [d.below(256) for _ in range(d.pick(32, 62, 128))]
            self.exchange(block, [0x76])
            self.exchange([0x21, d.below(256)], [0x61] + [d.below(256) for _ in range(d.pick(4, 10, 20))])
        self.exchange([0x82], [0xC2])
        if self.link.state != "down":
            self.send("D", "", 0, self.link.clock, self.link.clock)

    def run(self, n):
        while self.events < n:
            self.session()
        return self


class Garage(Workshop):
    """Sessions with cars. What two units answer stands apart by more than 20 ms, as else it would be one message."""

    def exchange(self, asked, given, quick):
        """A request and the answers to it, each with its unit's address."""
        whole = self.say("t", HEADS["t"] + asked, 60_000)
        for i, answer in enumerate(given):
            whole = whole and self.say("e", HEADS["e"] + answer, 2_000 if quick and i == 0 else 30_000)

    def session(self):
        for kb1, kb2 in CAR_KEYS:
            self.drive(kb1, kb2)

    def drive(self, kb1, kb2):
        d, quick = self.dice, CAR_KEYS[kb1, kb2] == 0
        self.slow_start(max(self.link.mark + 320_000, self.link.clock), kb1, kb2)
        self.exchange([0x01, 0x00], [[unit, 0x41, 0x00] + [d.below(256) for _ in range(4)] for unit in (0x10, 0x18)], quick)
        for _ in range(40):
            what, size = d.pick((0x04, 1), (0x05, 1), (0x0C, 2), (0x0C, 2), (0x0D, 1), (0x10, 2), (0x11, 1))
            units = (0x10, 0x18) if d.one_in(8) else (0x10,)
            self.exchange([0x01, what], [[unit, 0x41, what] + [d.below(256) for _ in range(size)] for unit in units], quick)
        self.exchange([0x03], [[0x10, 0x43] + [d.below(256) for _ in range(6)]], quick)
        late = self.link.mark + 5_000_001
        at, kind = d.pick((late, "T"), (max(self.link.mark + 100_000, self.link.clock), "D"))
        self.send(kind, "", 0, at, at)


if __name__ == "__main__":
    words = sys.argv[2:]
    if len(sys.argv) < 2 or not sys.argv[1].isdigit() or words not in ([], ["text"], ["cars"], ["cars", "text"]):
        sys.exit(__doc__)
    sessions = Garage if "cars" in words else Workshop
    w = sessions(sys.stdout.buffer.write, text if "text" in words else numbers).run(int(sys.argv[1]))
    print(f"{w.events} events, digest {w.digest}", file=sys.stderr)
