#!/usr/bin/env python3
"""Works out what the link must report, from the rules and not from this repository's definitions, over made-up event lists.

The rules are document 01's, "Events and what the link does", with requests One and Five of document 02. They are written here a second time, in other terms:
an initialization is a script that says what comes next, a message is the list of its bytes, a frame is judged by tests/reference.py once all of it is there, a
car's message as a list once nothing more can join it, and the idle time that a start needs is looked up by what came last.
Use: tests/link_reference.py events > crates/replay/stdin
     tests/link_reference.py reports > crates/replay/stdout
"""

import struct
import sys

from reference import EXTENDED, GOOD_KB1, NO_LIMIT, NORMAL, bits, decode, forms_taken, is_good, read

MOST = 4_000_000_000
LATEST = 4_000_000_000_000
MS = 1000

# ISO 9141-2: the address, the key bytes with their P2 min, and the head of a message by its side
CAR = 0x33
CAR_KEYS = {(0x08, 0x08): 25 * MS, (0x94, 0x94): 0}
HEADS = {"t": [0x68, 0x6A, 0xF1], "e": [0x48, 0x6B]}


def slow(address):
    """Yields side, earliest, latest and a test of the value, and is sent the value; ends in the key bytes."""
    yield "e", 60 * MS, 300 * MS, lambda v: v == 0x55
    kb1 = yield "e", 5 * MS, 20 * MS, lambda v: True
    kb2 = yield "e", 0, 20 * MS, lambda v: is_good(kb1, v) or (address == CAR and (kb1, v) in CAR_KEYS)
    yield "t", 25 * MS, 50 * MS, lambda v: v + kb2 == 255
    yield "e", 25 * MS, 50 * MS, lambda v: v + address == 255
    return kb1, kb2


def fast():
    def within(side, test=lambda v: True):
        return side, 0, 20 * MS, test

    request = [(yield "t", 49 * MS, 51 * MS, lambda v: v in (0x81, 0xC1))]
    request.append((yield within("t")))
    request.append((yield within("t")))
    request.append((yield within("t", lambda v: v == 0x81)))
    yield within("t", lambda v: v == sum(request) % 256)
    reply = [(yield "e", 25 * MS, 50 * MS, lambda v: v in (0x03, 0x00, 0x83, 0x80))]
    if reply[0] >= 0x80:
        reply.append((yield within("e")))
        reply.append((yield within("e")))
    if reply[0] % 0x80 == 0:
        reply.append((yield within("e", lambda v: v == 3)))
    reply.append((yield within("e", lambda v: v == 0xC1)))
    kb1 = yield within("e")
    kb2 = yield within("e")
    yield within("e", lambda v: v == (sum(reply) + kb1 + kb2) % 256 and is_good(kb1, kb2))
    return kb1, kb2


def against_car(side, message):
    """What is wrong with all the bytes of a car's message; None if nothing is."""
    if any(byte != right for byte, right in zip(message, HEADS[side])):
        return 6
    if len(message) not in range(5, 12):
        return 8
    *before, checksum = message
    return None if sum(before) % 256 == checksum else 9


class Link:
    def __init__(self):
        self.clock = self.mark = self.taken = self.heard = 0
        self.held = []  # bytes that no report has named
        self.counts = [0] * 7
        self.ending = "fresh", None  # or the latest report 4 or 7 or drop, and the windows in force then
        self.judged = None  # by what the latest start was judged, and the microseconds that it had to spare
        self.go_down()

    def go_down(self):
        self.state = "down"
        self.script = self.due = self.fall = None
        self.kb1 = self.kb2 = self.windows = None
        self.message = self.why = None
        self.awaited = None  # the reply that may come: first, further or none
        self.request = None  # the data of the latest tester frame, until it has taken effect

    def sight(self, now):
        """What is about to meet an event that starts then: key bytes, the time since the mark, the message that is open (side and bytes), what is
        wrong with it as far as it is settled, and what would be if it ended now."""
        side, bytes_ = self.message or ("", [])
        return self.kb1, now - self.mark, side, list(bytes_), self.why, against_car(side, bytes_) if self.message else None

    # -- reports

    def tell(self, number, reason=0):
        names = number <= 5
        first = self.heard - len(self.held)
        n = len(self.held) if names else 0
        if names:
            self.held = []
        self.out.append((number, reason, first, n, self.time))
        column = {1: 1, 2: 2, 3: 3, 4: 3, 5: 4}.get(number)
        if column:
            self.counts[column] += n
        if number in (1, 2):
            self.counts[4 + number] += 1
        if number in (4, 7):
            self.ending = (number, reason), self.windows

    def idle(self):
        """How long the line must have been quiet, from the mark, for an address or a wake-up."""
        what, windows = self.ending
        if what == (7, 1):
            return windows[2]
        return 0 if what == (7, 2) else 300 * MS

    # -- an event: (kind, side, value, start, end)

    def event(self, kind, side, value, start, end):
        if kind not in "AWBTD" or (kind == "B" and side not in ("t", "e")):
            return 1, []
        if max(start, end) > LATEST:
            return 2, []
        if start > end or start < self.clock:
            return 3, []
        if self.taken >= MOST or any(c > MOST for c in self.counts):
            return 4, []
        self.out, self.time = [], end
        self.pass_time(start)
        if kind in "AWD":
            self.close(3 if kind == "D" else 4)
        if kind == "D":
            self.ending = "drop", None
        if kind in "AW":
            spare = start - self.mark - self.idle()
            self.judged = self.ending[0], spare
            if spare < 0:
                self.tell(8)
                self.go_down()
            elif kind == "A":
                self.begin(slow(value))
            elif 24 * MS <= end - start <= 26 * MS:
                self.begin(fast())
                self.fall = start
            else:
                self.tell(4, 3)
                self.go_down()
        if kind == "B":
            if self.ends_request(side):
                self.end_message()
            self.heard += 1
            self.counts[0] += 1
            self.held.append(value)
            {"down": self.outside, "init": self.init_byte, "up": self.byte}[self.state](side, value, start)
        self.taken += 1
        self.clock = end
        if kind in "AWB":
            self.mark = end
        return 0, self.out

    def pass_time(self, now):
        gap = now - self.mark
        if self.state == "up" and self.open() and gap > 20 * MS:
            self.end_message()
        if self.state == "up" and self.awaited == "first" and exceeds(gap, self.windows[1]):
            self.tell(6)
            self.awaited = None
        if self.state == "up" and self.awaited != "first" and exceeds(gap, self.windows[3]):
            self.tell(7, 2)
            self.go_down()
        if self.state == "init" and now - self.origin() > self.due[2]:
            self.tell(4, 1)
            self.go_down()

    def open(self):
        return self.message is not None or self.why is not None

    def end_message(self):
        """What is open has come to its end with no more bytes: broken off, but on a car's link that is how a message ends."""
        side, bytes_ = self.message
        if self.why is None:
            self.why = against_car(side, bytes_) if self.is_car() else 1
        if self.why is None:
            self.tell(1)
            self.awaited = {"t": "first", "e": "further"}[side]
        else:
            self.tell(2, self.why)
            self.awaited = None
        self.message = self.why = None

    def ends_request(self, side):
        """Whether a byte of that side ends the message that is held: a unit's does, under 94 94, if it is the tester's."""
        held = self.message is not None and self.why is None
        return held and (self.kb1, self.kb2) == (0x94, 0x94) and (self.message[0], side) == ("t", "e")

    def close(self, reason):
        if self.state == "init":
            self.tell(4, 2)
            self.go_down()
        if self.state == "up":
            if self.open():
                self.tell(2, 2 if self.why is None else self.why)
            self.tell(7, reason)
            self.go_down()

    # -- initializations

    def begin(self, script):
        self.go_down()
        self.state, self.script = "init", script
        self.due = next(script)

    def origin(self):
        return self.mark if self.fall is None else self.fall

    def init_byte(self, side, value, start):
        due_side, earliest, _, fits = self.due
        if side != due_side:
            reason = 4
        elif start - self.origin() < earliest:
            reason = 5
        elif not fits(value):
            reason = 6
        else:
            try:
                self.due = self.script.send(value)
                self.fall = None
            except StopIteration as end:
                self.tell(3)
                self.go_down()
                self.state = "up"
                self.kb1, self.kb2 = end.value
                self.windows = self.own_set()
            return
        self.tell(4, reason)
        self.go_down()

    def is_car(self):
        return (self.kb1, self.kb2) in CAR_KEYS

    def own_set(self):
        if self.is_car():
            return CAR_KEYS[self.kb1, self.kb2], *NORMAL[1:]
        return EXTENDED if bits(self.kb1)[4] else NORMAL

    def outside(self, side, value, start):
        self.tell(5)

    # -- connected

    def byte(self, side, value, start):
        if self.why is not None:
            return
        if self.message is None:
            self.why = self.against_first(side, value, start - self.mark)
            self.message = (side, [])
        elif side != self.message[0]:
            self.why = 7
        bytes_ = self.message[1]
        bytes_.append(value)
        if self.why is not None or self.is_car():
            return
        n = self.size(bytes_)
        if n == 0:
            self.why = 8
        elif n == len(bytes_):
            reading = read(self.kb1, self.kb2, bytes_)
            if reading[0]:
                assert reading[0] == 9, (self.kb1, self.kb2, bytes_)
                self.why = 9
            else:
                self.tell(1)
                self.message = None
                start_of_data = reading[4]
                self.frame(side, bytes_[start_of_data:-1])

    def against_first(self, side, value, gap):
        p2min, p2max, p3min, _, _ = self.windows
        if side == "t":
            if self.awaited == "first" or gap < p3min:
                return 3
        else:
            if self.awaited is None or exceeds(gap, p2max):
                return 4
            if gap < p2min:
                return 3
        if self.is_car():
            return None
        form = {0: 0, 1: None, 2: 1, 3: 2}[value >> 6]
        if form is None:
            return 5
        if form not in forms_taken(self.kb1):
            return 6
        if not bits(self.kb1)[0 if value & 63 else 1]:
            return 8
        return None

    @staticmethod
    def size(bytes_):
        """The size of the whole frame as far as the bytes tell: None if they do not tell yet, 0 if its length byte is 0."""
        head = 1 + (2 if bytes_[0] >= 0x80 else 0)
        length = bytes_[0] & 63
        if not length:
            if len(bytes_) <= head:
                return None
            length = bytes_[head]
            head += 1
            if not length:
                return 0
        return head + length + 1

    def frame(self, side, data):
        if side == "t":
            self.awaited, self.request = "first", data
            return
        self.awaited = "further"
        request = self.request
        if request is None:
            return
        if request[0] == 0x82 and data[0] == 0xC2:
            self.tell(7, 1)
            self.go_down()
        elif request == [0x83, 0x01] and data == [0xC3, 0x01]:
            self.windows, self.request = self.own_set(), None
        elif request[:2] == [0x83, 0x03] and len(request) == 7 and data == [0xC3, 0x03]:
            no, windows = decode(request[2:])
            if no == 0:
                self.windows = windows
            self.request = None


def exceeds(gap, limit):
    return limit != NO_LIMIT and gap > limit


def car_bytes(side, data, address=0x11):
    """A car's message; a unit's has its address."""
    frame = HEADS[side] + ([address] if side == "e" else []) + data
    return frame + [sum(frame) % 256]


# ---- made-up sessions


def turns(before, kind, side, link, reports):
    """What an event has shown of a car's link, as tuples: `before` is the link's sight of it, `link` as it is now. TURNS has those that must be reached."""
    kb, gap, held, bytes_, why, fault = before
    out = set()
    if held and why is None:
        if reports and reports[0][0] in (1, 2):
            how = "closed" if reports[0] == (2, 2) else "gap" if gap > 20 * MS else "byte"
            out.add((how, kb, held, "right" if fault is None else fault, kind if how == "closed" else ""))
            if how == "gap" and gap == 20_001:
                out.add(("20,001", kb, held))
            if how == "gap" and (7, 2) in reports:
                out.add(("idle", kb, held, "right" if fault is None else fault))
            if how != "closed" and fault != 6:
                out.add(("size", kb, held, min(len(bytes_), 12)))
            if how != "closed" and held == "e" and any(not against_car("e", bytes_[:n]) and not against_car("e", bytes_[n:]) for n in range(5, 12)):
                out.add(("merged", kb, len(bytes_) if fault is None else fault))
        elif gap == 20_000:
            out.add(("20,000", kb, held))
        if link.why == 7:
            out.add(("other side", kb, held, "wrong head" if fault == 6 else ""))
    elif held and kind == "B" and gap <= 20 * MS:
        out.add(("skipped", kb, held, side, why))
    if kind == "B" and link.is_car() and len(link.held) == 1:
        out.add(("first", kb, side, link.why, gap))
    if len(reports) == 4:
        out.add(("four", kb, kind, tuple(reports)))
    return out


# four reports of one event, and the kinds of event that can have them
FOUR = {
    ((1, 0), (6, 0), (7, 2), (5, 0)): "B",
    ((1, 0), (6, 0), (7, 2), (4, 3)): "W",
    ((1, 0), (6, 0), (7, 4), (8, 0)): "AW",
    ((1, 0), (6, 0), (7, 4), (4, 3)): "W",
}


def wanted():
    """The turns that the made-up lists must reach."""
    faults = "right", 6, 8, 9
    yield from (("byte", 0x94, "t", fault, "") for fault in faults)
    yield "skipped", 0x94, "t", "e", 3
    yield from (("other side", kb, held, head) for kb, held in ((0x08, "t"), (0x08, "e"), (0x94, "e")) for head in ("", "wrong head"))
    yield from (("first", 0x94, "e", None, gap) for gap in (0, 20_000, 20_001))
    yield from (("first", 0x08, "e", why, gap) for why, gap in ((3, 20_001), (3, 24_999), (None, 25_000)))
    for kb, _ in CAR_KEYS:
        for side in "t", "e":
            yield from (("gap", kb, side, fault, "") for fault in faults)
            yield from (("idle", kb, side, fault) for fault in faults)
            yield from (("closed", kb, side, "right", kind) for kind in "AWD")
            yield from (("size", kb, side, n) for n in range(1, 13))
            yield from ((word, kb, side) for word in ("20,000", "20,001"))
        yield from (("merged", kb, what) for what in (10, 11, 8, 9))
        yield from (("first", kb, "e", why, gap) for why, gap in ((None, 50_000), (4, 50_001)))
        yield from (("first", kb, "t", why, gap) for why, gap in ((3, 20_001), (3, 54_999), (None, 55_000), (None, 5_000_000)))
        yield from (("four", kb, kind, reports) for reports, kinds in FOUR.items() for kind in kinds)


TURNS = set(wanted())


class Dice:
    def __init__(self, seed):
        self.seed = seed

    def below(self, n):
        self.seed = (self.seed * 6364136223846793005 + 1442695040888963407) % 2**64
        return (self.seed >> 33) % n

    def one_in(self, n):
        return self.below(n) == 0

    def pick(self, *xs):
        return xs[self.below(len(xs))]

    def about(self, lo, hi):
        """A gap in a window: mostly inside, often on an edge, now and then one beside it."""
        if hi == NO_LIMIT:
            hi = 30_000_000
        r = self.below(40)
        if r < 8:
            return lo
        if r < 16:
            return hi
        if r == 16:
            return max(lo - 1, 0)
        if r == 17:
            return hi + 1
        return lo + self.below(max(hi - lo, 1))


class Sessions:
    """Makes up the events of a link, with an eye on a reference link that hears them."""

    def __init__(self, seed):
        self.dice, self.link, self.events, self.answers, self.starts = Dice(seed), Link(), [], [], set()
        self.address = CAR  # of the latest slow start
        self.turns = set()  # what a car's link has gone through

    def send(self, kind, side, value, start, end):
        event = (kind, side, value, start, end)
        before = self.link.sight(start) if self.link.is_car() else None
        answer = self.link.event(*event)
        self.events.append(event)
        self.answers.append((answer, end))
        if kind in "AW":
            self.starts.add(self.link.judged)
        if before and answer[0] == 0:
            self.turns |= turns(before, kind, side, self.link, [r[:2] for r in answer[1]])

    def tick(self):
        """A tick on or one beside the end of a window that is running."""
        d, link = self.dice, self.link
        ends = [20_000]
        since = link.mark
        if link.state == "init":
            since, ends = link.origin(), [link.due[2], link.due[2], link.due[1]]
        elif link.state == "up":
            ends += [w for w in (link.windows[1], link.windows[3]) if w != NO_LIMIT]
        at = max(since + d.pick(*ends) + d.pick(0, 1), link.clock)
        self.send("T", "", 0, at, at)

    def byte(self, side, value, gap, since=None):
        if self.dice.one_in(70):
            self.tick()
        start = max((self.link.mark if since is None else since) + gap, self.link.clock)
        if self.dice.one_in(40) and start > self.link.clock:
            tick = self.link.clock + self.dice.below(start - self.link.clock + 1)
            self.send("T", "", 0, tick, tick)
        self.send("B", side, value, start, start + self.dice.pick(0, 960, 960, 960))

    def spoiled(self, value, one_in=80):
        return self.dice.pick(value ^ 1, self.dice.below(256), 0) if self.dice.one_in(one_in) else value

    def after(self, gap):
        return max(self.link.mark + gap, self.link.clock)

    def hear(self, side, value, gap, since=None):
        at = self.after(gap) if since is None else max(since + gap, self.link.clock)
        self.send("B", side, value, at, at + 960)

    def call(self, kind, gap, long=25_000, address=CAR):
        """An address or a wake-up; or a tick or a drop."""
        at = self.after(gap)
        self.send(kind, "", address if kind == "A" else 0, at, at + (long if kind in "AW" else 0))

    def connect(self, kb1, kb2=0x8F, address=CAR, off=(0, 0)):
        """A slow start, the complements off by so much."""
        self.call("A", 300_000, 1000, address)
        last = ("t", 255 - kb2 + off[0], 25_000), ("e", 255 - address + off[1], 25_000)
        for side, value, gap in (("e", 0x55, 60_000), ("e", kb1, 5_000), ("e", kb2, 0), *last):
            self.hear(side, value % 256, gap)

    def either(self, gap):
        """An address or a wake-up."""
        d, at = self.dice, self.after(gap)
        if d.one_in(2):
            self.address = d.pick(CAR, CAR, CAR, CAR, CAR, 0x11, d.below(256))
            self.send("A", "", self.address, at, at + d.pick(2_000_000, 2_000_000, 0))
        else:
            self.send("W", "", 0, at, at + d.pick(24_000, 26_000, 25_000, 25_000, 25_000, 25_000, 23_999, 26_001))

    def start(self):
        """A start on or one beside the idle time, or on or one beside 300 ms; before it now and then an outside byte or a drop."""
        d, link = self.dice, self.link
        if d.one_in(8):
            at = self.after(d.pick(0, 1_000, link.idle()))
            self.send("B", d.pick("t", "e"), d.below(256), at, at + d.pick(0, 960))
        if d.one_in(12):
            at = self.after(d.pick(0, 1_000, link.idle()))
            self.send("D", "", 0, at, at)
        idle = link.idle()
        self.either(d.pick(idle, idle, idle, idle, idle + 10_000, max(idle - 1, 0), 300_000, 299_999))

    def end(self):
        """The end of a session: a stop, P3 max running out in a tick, a drop or a start, or a restart on or one beside 300 ms."""
        d, link = self.dice, self.link
        p2min, p2max, p3min, p3max, _ = link.windows
        way = d.below(8)
        if way < 4:
            self.message("t", [0x82], p3min, p3min + 10_000)
            if link.state == "up":
                self.message("e", [0xC2], p2min, p2max)
        elif way < 7 and p3max != NO_LIMIT:
            at = self.after(p3max + d.pick(1, 1, 1, 0))
            if d.one_in(2):
                self.either(at - link.mark)
            else:
                self.send(d.pick("T", "D"), "", 0, at, at)
        else:
            self.either(d.pick(299_999, 300_000, p3min, 250_000))

    def initialize(self):
        d, link = self.dice, self.link
        kb1, kb2 = d.pick(*GOOD_KB1), 0x8F
        if link.fall is None and self.address == CAR and not d.one_in(4):
            kb1, kb2 = d.pick(*CAR_KEYS)
        if d.one_in(12):
            kb1, kb2 = d.pick((d.below(256), 0x8F), (kb1, d.below(256)), (0x08, 0x08), (0x94, 0x94), (0x08, 0x94), (0x94, 0x08))
        layout = d.pick(0x03, 0x00, 0x83, 0x80)
        reply = [layout] + ([d.below(256), d.below(256)] if layout >= 0x80 else []) + ([3] if layout % 0x80 == 0 else []) + [0xC1, kb1, kb2]
        request = [d.pick(0x81, 0xC1), d.below(256), d.below(256), 0x81]
        script = request + [sum(request) % 256] + reply + [sum(reply) % 256]
        if link.fall is None:
            script = [0x55, kb1, kb2, 255 - kb2, 255 - self.address]
        for value in script:
            if link.state != "init":
                return
            if d.one_in(60):
                self.disturb()
                continue
            side, lo, hi, _ = link.due
            other = "e" if side == "t" else "t"
            if d.one_in(60):  # several faults at once
                self.byte(d.pick(side, other), value ^ 1, max(lo - 1, 0), link.origin())
                continue
            self.byte(other if d.one_in(80) else side, self.spoiled(value), d.about(lo, hi), link.origin())

    def frame(self, data):
        d, kb1 = self.dice, self.link.kb1
        form = d.pick(*sorted(forms_taken(kb1))) if not d.one_in(20) else d.pick(0, 1, 2, 2, 3)
        b = bits(kb1)
        extra = (b[1] and (d.one_in(3) or not b[0] or len(data) > 63)) if not d.one_in(30) else d.one_in(2)
        data = data if extra else data[:63]
        top = [0x00, 0x80, 0xC0, 0x40][form]
        head = [top + (0 if extra else len(data) % 64)] + ([0x11, 0xF1] if form in (1, 2) else []) + ([len(data)] if extra else [])
        frame = head + data
        return frame + [sum(frame) % 256]

    def message(self, side, data, lo, hi):
        d, first = self.dice, True
        for value in self.frame(data):
            if self.link.state != "up":
                return
            if d.one_in(120):
                self.disturb()
                continue
            if d.one_in(300):
                side = "e" if side == "t" else "t"
            self.byte(side, self.spoiled(value, 250), d.about(lo, hi) if first else d.pick(0, 0, 5000, 5000, 20_000, d.about(0, 20_000)))
            first = False

    def whole(self, side, data, gap):
        """A frame without addresses, its bytes end to end."""
        frame = [len(data)] + data
        for i, value in enumerate(frame + [sum(frame) % 256]):
            self.hear(side, value, 0 if i else gap)

    def exchange(self):
        d, link = self.dice, self.link
        kind = d.below(12)
        asked = [0x21] + [d.below(256) for _ in range(d.pick(0, 1, 2, 5, 6, 7, 20, 61, 62, d.pick(62, 63, 127, 253, 254)))]
        given = [0x61] + asked[1:9]
        if kind == 0:
            asked, given = [0x82] + asked[1:3], [0xC2] + asked[1:2]
        elif kind in (1, 2):
            asked, given = [0x83, 0x01], [0xC3, 0x01]
        elif kind in (3, 4, 5):
            codes = d.pick([0x32, 0x02, 0x6E, 0x14, 0x0A], [0x00, 0x28, 0x0B, 0x14, 0x0A], [0x04, 0x01, 0x0C, 0x04, 0x04], [0, 0xFF, 0x10, 0xFF, 0], [0, 0xF1, 0x40, 0x01, 0x0A], [0x32, 0x02, 0x0A, 0x14, 0x0A], [d.below(256) for _ in range(5)])
            asked, given = [0x83, 0x03] + codes, [0xC3, 0x03]
        elif kind == 6:
            asked, given = [0x83, d.pick(1, 3)] + [0x10] * d.pick(0, 1, 4, 6), [0xC3, d.pick(1, 3)]
        _, _, p3min, p3max, _ = link.windows
        self.message("t", asked, p3min, d.pick(p3min + 10_000, p3max))
        if link.state == "up" and d.one_in(12):
            self.tick()
            return
        for _ in range(d.pick(1, 1, 1, 2, 3)):
            if link.state == "up":
                if d.one_in(8):  # an answer to something else, perhaps to an older request
                    given = d.pick([0xC2], [0xC3, 0x01], [0xC3, 0x03], [0x7F, 0x83, 0x11])
                self.message("e", given if not d.one_in(20) else given + [1], link.windows[0], link.windows[1])

    def car_frame(self, side):
        """A car's message, mostly right: else with wrong bytes in its head, a wrong size, a wrong checksum, or several of these."""
        d = self.dice
        known = {"t": ([0x01, 0x0C], [0x03], [0x82], [0x83, 0x01], [0x83, 0x03, 0x00, 0x28, 0x0B, 0x14, 0x0A])}
        known["e"] = [0x41, 0x0C, 0x1A, 0xF8], [0x43], [0xC2], [0xC3, 0x01], [0xC3, 0x03]
        data = d.pick(*known[side]) if d.one_in(2) else [d.below(256) for _ in range(1 + d.below(7))]
        wrong = {d.below(12), d.below(12)} if d.one_in(3) else set()
        if 0 in wrong:
            data = [d.below(256) for _ in range(d.pick(0, 8, 9, 20))]
        frame = car_bytes(side, data, d.pick(0x11, 0x12, d.below(256)))
        place = d.below(3)
        if 1 in wrong:
            frame[place] = d.pick(frame[place] ^ 1, d.below(256), 0x68, 0x48)
            frame[-1] = sum(frame[:-1]) % 256
        if 2 in wrong:
            frame[place] = d.below(256)
        if 3 in wrong:
            frame[-1] = d.pick(frame[-1] ^ 1, frame[-1] ^ 0x80, d.below(256))
        return frame[: 1 + d.below(4)] if 4 in wrong else frame

    def car_message(self, side, gap):
        d, other = self.dice, "e" if side == "t" else "t"
        for i, value in enumerate(self.car_frame(side)):
            if not self.link.is_car():
                return
            if d.one_in(150):
                self.disturb()
                continue
            by = other if d.one_in(100) else side
            self.byte(by, value, d.pick(0, 0, 0, 5_000, 5_000, 20_000, d.about(0, 20_000)) if i else gap)

    def drive(self):
        """A car's request and replies, or something else at one of its times."""
        d, link = self.dice, self.link
        p2min, p2max, p3min, p3max, _ = link.windows
        self.car_message("t", d.pick(p3min, p3min + 10_000, p3min + 10_000, d.about(p3min, p3max)) if not d.one_in(20) else d.pick(0, 20_000, 20_001, 24_999))
        if d.one_in(10):
            self.look()
        if link.is_car() and d.one_in(12):
            self.run_together()
        for _ in range(d.pick(0, 1, 1, 1, 2, 3)):
            if link.is_car():
                self.car_message("e", d.about(p2min, p2max) if not d.one_in(5) else d.pick(0, 20_000, 20_001, 24_999, 25_000, 50_001))

    def run_together(self):
        """Two short replies with little time between them, the first often with a checksum with which they pass as one."""
        d = self.dice
        data = [d.below(256) for _ in range(d.pick(1, 1, 2))]
        self.car_whole("e", data, 25_000, (d.pick(0x00, 0x80, d.below(256)) - sum(HEADS["e"] + data)) % 256)
        self.car_whole("e", [d.below(256)], d.pick(0, 5_000, 20_000, 20_001))

    def look(self):
        """A tick, drop, start or byte on or one after the end of a window of a car's link."""
        d = self.dice
        gap = d.pick(0, 20_000, 20_001, 50_000, 50_001, 299_999, 300_000, 5_000_000, 5_000_001)
        kind = d.below(8)
        if kind < 3:
            self.call("T", gap)
        elif kind == 3:
            self.call("D", gap)
        elif kind == 4:
            self.call("W", gap, d.pick(23_999, 26_001))
        elif kind == 5:
            self.hear(d.pick("t", "e"), d.pick(0x68, 0x48), gap)
        else:
            self.either(gap)

    def car_whole(self, side, data, gap, address=0x11):
        """A car's message that is right, its bytes end to end."""
        self.all(side, car_bytes(side, data, address), gap)

    def all(self, side, values, gap):
        for i, value in enumerate(values):
            self.hear(side, value, 0 if i else gap)

    def disturb(self):
        d, link = self.dice, self.link
        gap = d.pick(0, 0, 1_000, 5_000, 20_000, 20_001, 50_000, 50_001, 300_000, 5_000_000, 5_000_001, 30_000_000)
        at = max(link.mark + gap, link.clock)
        kind = d.below(10)
        if kind < 3:
            self.send("T", "", 0, at, at)
        elif kind == 3:
            self.send("D", "", 0, at, at)
        elif kind == 4:
            self.send("A", "", d.below(256), at, at + d.below(3) * 1000)
            self.address = self.events[-1][2]
        elif kind == 5:
            self.send("W", "", 0, at, at + d.pick(25_000, 10))
        elif kind == 6:
            self.send("B", d.pick("t", "e"), d.below(256), at, at + 960)
        else:
            self.refused(at)

    def refused(self, at):
        d = self.dice
        r = d.below(8)
        if r == 6:
            self.send(d.pick("X", "T"), "", 0, LATEST + 2, LATEST + 1)
        elif r == 7:
            self.send("B", d.pick("x", "t"), 0, at + 1, d.pick(at, LATEST + 1))
        elif r == 0:
            self.send("X", "", 0, at, at)
        elif r == 1:
            self.send("B", "x", 1, at, at)
        elif r == 2:
            self.send(d.pick("T", "D"), "", 0, LATEST + 1, LATEST + 1)
        elif r == 3:
            self.send("W", "", 0, at, LATEST + 1)
        elif r == 4 and self.link.clock:
            self.send("B", "t", 1, self.link.clock - 1, at)
        else:
            self.send("B", "e", 1, at + 1, at)

    def go_on(self, n):
        """Sessions, as long as there are fewer than n events."""
        while len(self.events) < n:
            if self.dice.one_in(25):
                self.disturb()
            elif self.link.state == "down":
                self.start()
            elif self.link.state == "init":
                self.initialize()
            elif self.link.is_car():
                self.look() if self.dice.one_in(8) else self.drive()
            elif self.dice.one_in(5):
                self.end()
            else:
                self.exchange()
        return self

    def run(self, n):
        self.go_on(n)
        self.send("T", "", 0, LATEST, LATEST)
        self.send("T", "", 0, LATEST + 1, LATEST + 1)
        return self


def example():
    """Document 01's own example."""
    s = Sessions(0)
    s.send("W", "", 0, 300_000, 325_000)
    for side, at, gap, values in (("t", 350_000, 5000, "81 11 F1 81 04"), ("e", 404_800, 0, "83 F1 11 C1 EF 8F C4"), ("t", 466_520, 5000, "01 3E 3F")):
        for value in bytes.fromhex(values):
            s.send("B", side, value, at, at + 960)
            at += 960 + gap
    s.send("T", "", 0, 529_401, 529_401)
    return s


def scripts():
    """Rare turns, one by one: a second address at the very end of the first one's window; a drop on a held message; 6 and 7 in one event; and a
    late answer. Then idle times, and cars."""
    s = Sessions(0)
    s.send("A", "", 0x33, 300_000, 2_300_000)
    s.send("A", "", 0x33, 2_600_000, 2_600_000)
    s.send("W", "", 0, 2_900_000, 2_925_000)
    s.send("W", "", 0, 3_225_000, 3_250_000)
    t = example()
    t.send("B", "t", 0x01, 600_000, 600_960)
    t.send("D", "", 0, 620_960, 620_960)
    u = example()
    u.whole("t", [0x3E], 60_000)
    u.hear("e", 0x00, 5_000_001)
    u.connect(0xEF)
    u.whole("t", [0x3E], 60_000)
    u.call("T", 5_000_001)
    v = example()  # an answer to a request that is no longer the latest: the old windows stay, and a byte after 10 ms is early
    v.whole("t", [0x83, 0x03, 0x00, 0x28, 0x0B, 0x14, 0x0A], 60_000)
    v.whole("e", [0x7F, 0x83, 0x11], 30_000)
    v.whole("t", [0x3E], 60_000)
    v.whole("e", [0xC3, 0x03], 30_000)
    v.whole("t", [0x3E], 10_000)
    return [s, t, u, v] + idle_scripts() + car_scripts()


def idle_scripts():
    """Idle times one after another."""
    w = example()  # after a stop P3 min, which a report 8 and an outside byte keep; after a drop 300 ms; after P3 max 0; after a wrong low 300 ms
    w.whole("t", [0x82], 60_000)
    w.whole("e", [0xC2], 30_000)
    w.call("W", 54_999)
    w.call("A", 54_999)
    w.hear("t", 0x00, 0)
    w.call("A", 54_999)
    w.call("D", 60_000)
    w.call("A", 299_999)
    w.connect(0xD5)
    w.call("T", 5_000_001)
    w.hear("e", 0x00, 6_000_000)
    w.call("W", 0, 23_999)
    w.call("A", 0)
    w.call("A", 300_000)
    x = Sessions(0)  # P3 max, of 250 ms, runs out in a start, which goes on; in a drop and before one, after which 300 ms are asked; and a stop
    for turns in ("A", 250_001), ("W", 250_001), ("D", 250_001, "A", 299_999), ("T", 250_001, "D", 260_000, "W", 299_999):
        x.connect(0xD5)
        x.whole("t", [0x83, 0x03, 0x00, 0x01, 0x0C, 0x01, 0x0A], 5_500)
        x.whole("e", [0xC3, 0x03], 0)
        for kind, gap in zip(turns[::2], turns[1::2]):
            x.call(kind, gap)
    x.connect(0xD5)
    x.whole("t", [0x82], 5_500)
    x.whole("e", [0xC2], 0)
    x.call("W", 5_499)
    x.call("W", 5_500)
    return [w, x]


class Cars(Sessions):
    """Sessions with a car of the given key bytes, turn by turn."""

    def __init__(self, kb):
        super().__init__(0)
        self.kb = kb

    def up(self):
        self.connect(self.kb, self.kb)

    def ask(self):
        self.car_whole("t", [0x01, 0x0C], 55_000)

    def say(self, side, values):
        """All the bytes of a message, as soon as it may come; a unit's after a request."""
        if side == "e":
            self.ask()
        self.all(side, values, 55_000 if side == "t" else 25_000)

    def sized(self, side, n):
        """A message of n bytes, right but for its size."""
        message = car_bytes(side, [(n + 7 * i) % 256 for i in range(max(n - 4, 0))])
        return message[:n]

    def faulty(self, side, fault, place=1):
        """A message with that fault alone: right, or 6 by the byte at that place, 8 or 9."""
        message = self.sized(side, 12 if fault == 8 else 5)
        if fault == 6:
            message[place] ^= 1
            message[-1] = sum(message[:-1]) % 256
        if fault == 9:
            message[-1] ^= 1
        return message

    def sizes(self, sizes):
        self.up()
        for side in "t", "e":
            for n in sizes:
                self.say(side, self.sized(side, n))
                self.call("T", 20_000)
                self.call("T", 20_001)

    def heads(self, values):
        """These values at each place of a head, with a right size and sum; then wrong sums, and several faults at once."""
        self.up()
        for side in "t", "e":
            for place in range(3):
                for value in values:
                    message = self.sized(side, 5)
                    message[place] = value % 256
                    message[-1] = sum(message[:-1]) % 256
                    self.say(side, message)
                for n in place + 1, 12:
                    message = self.sized(side, n)
                    message[place] ^= 1
                    self.say(side, message)
            for n in 4, 5, 11, 12:
                message = self.sized(side, n)
                message[-1] ^= 0x80
                self.say(side, message)
        self.call("T", 20_001)

    def other_sides(self, sizes, gaps):
        """After some bytes of a message, right or not, a message of the other side."""
        self.up()
        for side, other in ("t", "e"), ("e", "t"):
            for gap in gaps:
                for message in [self.sized(side, n) for n in sizes] + [self.faulty(side, fault) for fault in (6, 8, 9)] + [self.faulty(side, 6, 0)]:
                    self.say(side, message)
                    self.all(other, self.sized(other, 6), gap)
                    self.hear(side, message[0], 20_000)
                    self.call("T", 20_001)
        self.hear("t", 0x68, 54_999)  # and into damage of the tester
        self.hear("e", 0x48, 20_000)
        self.hear("t", 0x68, 0)
        self.call("T", 20_001)

    def replies(self, gaps):
        """First and further replies after these times; and one to damage."""
        self.up()
        for gap in gaps:
            self.ask()
            self.car_whole("e", [0x41], gap)
            self.car_whole("e", [0x41], gap, 0x12)
            self.say("t", self.faulty("t", 9))
            self.car_whole("e", [0x41], gap)

    def befores(self):
        """What may have come before an event on a link that is up: by name what to do."""
        out = {"nothing": lambda: None}
        for side in "t", "e":
            for fault in "right", 6, 8, 9:
                out[side, fault] = lambda side=side, fault=fault: self.say(side, self.faulty(side, fault, 0))
            out[side, "over"] = lambda side=side: (self.say(side, self.sized(side, 5)), self.call("T", 20_001))
        out["early"] = lambda: self.all("t", self.sized("t", 5), 54_999)
        out["stray"] = lambda: self.all("e", self.sized("e", 5), 30_000)
        out["other side"] = lambda: (self.say("e", self.sized("e", 5)), self.hear("t", 0x68, 0))
        return out

    def meet(self, before, what, gap):
        """On a link that is up, what came before, and after that time an event: a byte of either side with the message behind it, a tick, a drop, an
        address, or a wake-up of a good or a wrong (w) low."""
        self.up()
        self.befores()[before]()
        if what in "te":
            self.all(what, self.sized(what, 5), gap)
            self.call("T", 20_001)
        else:
            self.call(what.upper(), gap, 23_999 if what == "w" else 25_000)

    def slow_starts(self):
        """Starts with each of their bytes on and one beside each end of its window."""
        for place in range(5):
            for edge in (1, -1), (1, 0), (2, 0), (2, 1):
                self.call("A", 300_000, 1000)
                for i, value in enumerate((0x55, self.kb, self.kb, 255 - self.kb, 255 - CAR)):
                    if self.link.state == "init":
                        end, beside = edge if i == place else (1, 0)
                        self.hear(self.link.due[0], value, max(self.link.due[end] + beside, 0))

    def merged(self, sums, sizes, gaps):
        """Two replies after these times, the first with these checksums."""
        self.up()
        for checksum in sums:
            for first, second in sizes:
                for gap in gaps:
                    data = [0x41, 0x0C, 0x07][: first - 4]
                    self.ask()
                    self.car_whole("e", data, 25_000, (checksum - sum(HEADS["e"] + data)) % 256)
                    self.all("e", self.sized("e", second), gap)
                    self.call("T", 20_001)

    def data(self):
        """Data that would stop a 14230 link or change its windows; then a request and a reply that show those in force."""
        self.up()
        codes = [0x04, 0x01, 0x0C, 0x04, 0x04], [0x00, 0x28, 0x6E, 0x01, 0x0A]
        for asked, given in ([0x82], [0xC2]), ([0x83, 0x01], [0xC3, 0x01]), *(([0x83, 0x03] + c, [0xC3, 0x03]) for c in codes):
            self.car_whole("t", asked, 55_000)
            self.car_whole("e", given, 25_000)
            for earlier in 1, 0:
                self.car_whole("t", [0x03], 55_000 - earlier)
                self.car_whole("e", [0x43], 25_000 - earlier)
        self.call("T", 300_000)
        self.call("T", 5_000_000)
        self.call("T", 5_000_001)


def car_scripts():
    """Cars under both pairs of key bytes; then the pairs with other addresses, mixed, in fast starts, and sessions of both editions."""
    out = []
    for kb, _ in CAR_KEYS:
        s = Cars(kb)
        s.sizes(range(1, 14))
        s.heads([0x00])
        s.other_sides((1, 5), (0, 20_000))
        s.replies((0, 20_000, 20_001, 24_999, 25_000, 50_000, 50_001))
        for gap in 20_001, 54_999, 55_000, 5_000_000:
            for before in "nothing", ("t", "right"), ("e", "right"):
                s.meet(before, "t", gap)
        for before in s.befores():
            s.meet(before, "e", 5_000_001)
        for what, gap in ("A", 0), ("W", 20_000), ("D", 20_000), ("w", 5_000_000):
            for side in "t", "e":
                s.meet((side, "right"), what, gap)
        for what, gap in ("A", 50_001), ("W", 299_999), ("w", 5_000_001), ("A", 5_000_001), ("W", 5_000_001), ("D", 5_000_001):
            s.meet(("t", "right"), what, gap)
        s.merged((0x00, 0x80, 0x40), ((5, 5), (5, 6), (6, 6)), (20_000,))
        s.data()
        out.append(s)
    return out + [pairs((CAR, 0x11), (0x80,))]


def pairs(addresses, layouts):
    """Pairs of key bytes by slow starts with these addresses and fast ones with these replies, and sessions of the other edition between them."""
    s = Sessions(0)
    for kb1 in 0x08, 0x94, 0xD5:
        for kb2 in 0x08, 0x94, 0x8F:
            for address in addresses:
                s.connect(kb1, kb2, address)
                s.car_whole("t", [0x82], 55_000)
                s.whole("t", [0x82], 55_000)
                s.whole("e", [0xC2], 25_000)
            for layout in layouts:
                s.call("W", 300_000)
                s.all("t", [0x81, 0x11, 0xF1, 0x81, 0x04], 25_000)
                reply = [layout] + [0xF1, 0x11][: layout >> 6] + [3][layout & 3 :] + [0xC1, kb1, kb2]
                s.all("e", reply + [sum(reply) % 256], 25_000)
                s.whole("t", [0x3E], 55_000)
    for kb, _ in CAR_KEYS:
        for off in (1, 0), (-1, 0), (0, 1), (0, -1):
            s.connect(kb, kb, CAR, off)
    return s


# reports that must come up, and some that must come together in one event
TOGETHER = {
    ((6, 0), (7, 2)),
    ((6, 0), (7, 2), (5, 0)),
    ((2, 2), (7, 3)),
    ((4, 2),),
    ((4, 1), (5, 0)),
    ((1, 0), (7, 1)),
    ((2, 2), (7, 4), (8, 0)),
} | set(FOUR)
# by what starts must have been judged, and what they had to spare: the idle time to the microsecond, or one less
STARTS = {(what, spare) for what in ("fresh", "drop", (7, 1), (7, 4)) for spare in (0, -1)} | {((7, 2), 0)} | {((4, k), -1) for k in range(1, 7)}
EVERY = {(1, 0), (3, 0), (5, 0), (6, 0), (8, 0)} | {(2, k) for k in range(1, 10)} | {(4, k) for k in range(1, 7)} | {(7, k) for k in range(1, 5)}


def lists():
    """The event lists, each for a fresh link: the example, then made-up sessions."""
    return [example()] + scripts() + [Sessions(seed).run(600) for seed in range(1, 29)]


def pack(event):
    kind, side, value, start, end = event
    return struct.pack("<ccBBQQ", kind.encode(), side.encode() or b"\0", value, 0, start, end)


def main(what):
    runs = lists()
    seen = {r[:2] for s in runs for (_, reports), _ in s.answers for r in reports}
    numbers = {no for s in runs for (no, _), _ in s.answers}
    together = {tuple(r[:2] for r in reports) for s in runs for (_, reports), _ in s.answers}
    starts = {one for s in runs for one in s.starts}
    cars = {one for s in runs for one in s.turns}
    missing = sorted(EVERY - seen) + sorted(TOGETHER - together) + sorted({0, 1, 2, 3} - numbers) + sorted(STARTS - starts, key=str)
    missing += sorted(TURNS - cars, key=str)
    assert max(map(len, together)) == 4  # at most four reports an event
    if missing:
        sys.exit(f"the made-up lists do not reach {missing}")
    for s in runs:
        if what == "events":
            for event in s.events:
                sys.stdout.buffer.write(pack(event))
            sys.stdout.buffer.write(b"\0" * 20)  # the end of a list: the next link is fresh
            continue
        print("report reason first bytes time")
        for (no, reports), _ in s.answers:
            if no:
                print("refused", no)
            for r in reports:
                print(*r)
        print("end", *s.link.counts, len(s.link.held))


if __name__ == "__main__":
    if sys.argv[1:] not in (["events"], ["reports"]):
        sys.exit(__doc__)
    main(sys.argv[1])
