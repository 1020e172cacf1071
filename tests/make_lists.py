#!/usr/bin/env python3
"""Writes event lists for the listing program, made up from a seed: sessions with times on and one beside the edge of every window, a good part of them
with cars (ISO 9141-2), and, among their lines, ones that can't be read. Some lists go through every key byte, timing code, first byte and idle time,
all turns of a car's link, and any byte at every place of a line.

Use: tests/make_lists.py SEED EVENTS DIR (some 300 files into DIR, which must not be there yet, with at least EVENTS events to be taken)
"""

import os
import re
import sys

from link_reference import CAR, CAR_KEYS, LATEST, TURNS, Cars, Dice, Sessions, example, pairs, scripts
from reference import GOOD_KB1, NO_LIMIT

READABLE = re.compile(rb"(A [0-9A-F]{2} T T|W T T|B [te] [0-9A-F]{2} T T|[TD] T)".replace(b" T", b" [0-9]{1,13}"))
LETTERS = b"AWBTDte0123456789ABCDEF  \n"


# ---- sessions


class Talk(Sessions):
    """Sessions with more turns of timing, shorter frames, and refused times of every size."""

    def exchange(self):
        d = self.dice
        for _ in range(d.below(4)):
            if self.link.state == "up":
                if d.one_in(3):
                    self.change_timing()
                else:
                    self.ask_and_answer([0x3E, d.below(256)][: d.pick(1, 2)], [0x7E])
        if self.link.state == "up":
            super().exchange()

    def ask_and_answer(self, asked, given):
        d, link = self.dice, self.link
        _, _, p3min, p3max, _ = link.windows
        self.message("t", asked, p3min, d.pick(p3min + 10_000, p3max))
        for answer in d.pick([given], [given], [given], [[0x7F, asked[0], 0x78], given], [given, given], []):
            if link.state == "up":
                self.message("e", answer, link.windows[0], link.windows[1])

    def change_timing(self):
        d = self.dice
        asked = [0x83, 0x03] + self.codes() if not d.one_in(4) else [0x83, 0x01]
        given = [0xC3, asked[1]] if not d.one_in(5) else d.pick([0x7F, 0x83, 0x11], [0xC3], [0xC3, 0x01], [0xC3, 0x03])
        if d.one_in(8):
            asked = d.pick(asked[:-1], asked + [d.below(256)])
        self.ask_and_answer(asked, given)

    def end(self):
        """Now and then under a P3 max of 250 ms: a start may come after it and sooner than 300 ms."""
        d = self.dice
        if d.one_in(3):
            self.ask_and_answer([0x83, 0x03, 0x00, d.pick(1, 0xFF), d.pick(0x0B, 0xFF, 1 + d.below(255)), 1, 0], [0xC3, 0x03])
        if self.link.state == "up":
            super().end()

    def codes(self):
        """Mostly allowed ones, and ones beside them."""
        d = self.dice
        p4min = d.pick(0, 4, 10, 38, 39, d.below(40))
        p3min = d.pick(p4min + 1, p4min + 1, p4min + 2, d.below(256))
        p2min = d.pick(0, 1, 49, d.below(50), d.below(256))
        codes = [p2min, d.pick(1, 2, 0xF0, 0xF1, 0xFE, 0xFF, d.below(256)), p3min, d.pick(1, 1, 4, 20, 0xFE, 0xFF, d.below(256)), p4min]
        if d.one_in(5):
            at, code = d.pick((0, 50), (1, 0), (2, p4min), (3, 0), (4, 40), (4, p3min))
            codes[at] = code
            if at == 0:
                codes[1] = 1
        return codes

    def refused(self, at):
        d = self.dice
        if d.one_in(4):
            late = d.pick(LATEST + 1, LATEST + 1 + d.below(10**9), 10**13 - 1)
            kind = d.pick("A", "W", "B", "T", "D")
            start = late if kind in "TD" else d.pick(at, late, 0)
            self.send(kind, "t" if kind == "B" else "", d.below(256), start, d.pick(late, start) if start == late else late)
        else:
            super().refused(at)

    def run(self, n):
        """n events or some more. The clock starts anywhere, also where a time gets one digit more."""
        d = self.dice
        base = d.pick(0, 0, 0, 10 ** (7 + d.below(6)) - d.below(5_000_000), d.below(2**31) * 1000)
        if d.one_in(20):
            base = LATEST - n * 100_000
        if base > 0:
            self.send("T", "", 0, base, base)
        return self.go_on(n)


# ---- every key byte, byte of an initialization, first byte of a message, timing code, answer and idle time


class Sweep(Sessions):
    def __init__(self):
        super().__init__(0)

    def wait(self, gap):
        self.call("T", gap)

    def keys(self):
        for value in range(256):
            self.connect(value)
            self.connect(0xEF, value)
            for kb, _ in CAR_KEYS:
                self.connect(value, kb)
                self.connect(kb, value)
                self.connect(kb, kb, value)
        return self

    def initializations(self):
        """Both with every value at every place, up to the byte that fails."""
        for kind, script in (("A", "55EF8F70CC"), ("A", "550808F7CC"), ("A", "5594946BCC"), ("W", "8111F1810480F11103C1EF8FC4")):
            script = bytes.fromhex(script)
            for place in range(len(script)):
                for value in range(256):
                    self.call(kind, 300_000)
                    for i, right in enumerate(script):
                        if self.link.state == "init":
                            side, gap, _, _ = self.link.due
                            self.hear(side, value if i == place else right, gap, self.link.origin())
        return self

    def first_bytes(self):
        for kb1 in GOOD_KB1:
            self.connect(kb1)
            for value in range(256):
                self.hear("t", value, self.link.windows[2])
                self.wait(20_001)
        return self

    def ask_and_answer(self, asked, given):
        self.whole("t", asked, self.link.windows[2])
        self.whole("e", given, self.link.windows[0])

    def codes(self):
        for place in range(5):
            for code in range(256):
                codes = [0x04, 0x01, 0x6E if place == 4 else 0x0C, 0x04, 0x04]
                codes[place] = code
                if self.link.state != "up" or self.link.awaited == "first" or place == 4:
                    self.connect(0x67 if code % 2 else 0xD5)
                self.ask_and_answer([0x83, 0x03] + codes, [0xC3, 0x03])
                self.probe(place)
        return self

    def answers(self):
        """Requests that take effect, and ones beside them, with answers of either sort, under windows that are not KB1's."""
        codes = [0x00, 0x28, 0x20, 0x14, 0x0A]
        asked = [[0x82], [0x82, 1], [0x83], [0x83, 1], [0x83, 1, 1], [0x83, 1] + codes, [0x83, 2], [0x83, 2] + codes, [0x83, 3], [0xC2], [0x3E]]
        asked += [[0x83, 3] + codes[:4], [0x83, 3] + codes, [0x83, 3] + codes + [1]]
        given = [[0xC2], [0xC2, 1], [0xC3], [0xC3, 1], [0xC3, 1, 1], [0xC3, 2], [0xC3, 3], [0xC3, 3, 1], [0xC3, 3] + codes]
        given += [[0x82], [0x83, 1], [0x83, 3]]
        for i, a in enumerate(asked):
            for g in given:
                self.connect(0x67 if i % 2 else 0xD5)
                self.ask_and_answer([0x83, 0x03, 0x04, 0x01, 0x0C, 0x04, 0x04], [0xC3, 0x03])
                self.ask_and_answer(a, g)
                if self.link.state == "up":
                    self.probe(2)
        return self

    def probe(self, place):
        p2min, p2max, p3min, p3max, _ = self.link.windows
        if place == 0:
            for gap in (p2min - 1, p2min):
                self.whole("t", [0x3E], p3min)
                self.whole("e", [0x7E], max(gap, 0))
                self.wait(20_001)
        elif place == 1:
            self.whole("t", [0x3E], p3min)
            self.both_sides(p2max)
        elif place == 3:
            self.both_sides(p3max)
        else:
            for gap in (p3min - 1, p3min):
                self.whole("t", [0x3E], max(gap, 0))
                self.wait(20_001)
            self.wait(p2max + 1)

    def both_sides(self, limit):
        limit = 100_000_000 if limit == NO_LIMIT else limit
        self.wait(limit)
        self.wait(limit + 1)

    def idle_times(self):
        """Sessions under several P3 min that end in several ways, what may come while a link is down, and a start on or one before the idle time or 300
        ms; then starts and drops on links that are still up, unless P3 max has run out."""
        for kb1, codes in ((0x67, None), (0xD5, None), (0x67, [0x00, 0x01, 0x01, 0x01, 0x00]), (0xD5, [0x00, 0x01, 0xFF, 0x01, 0x0A])):
            for end in "82", "T", "D":
                for between in ("", "b", "8", "88", "b8", "8b", "d", "bd", "db", "8d", "r", "c", "w", "s", "e", "v"):
                    for start in "less", "same", 299_999, 300_000:
                        self.session(kb1, codes)
                        self.finish(end)
                        for what in between:
                            self.between(what)
                        idle = self.link.idle()
                        self.call("AW"[len(self.events) % 2], {"less": max(idle - 1, 0), "same": idle}.get(start, start))
            for kind in "AWD":
                for gap in 0, 20_001, 55_000, 250_000, 250_001, 299_999, 300_000, 5_000_000, 5_000_001:
                    self.session(kb1, codes)
                    self.call(kind, gap)
                    self.call("A", 299_999)
        return self

    def session(self, kb1, codes):
        self.connect(kb1)
        if codes:
            self.ask_and_answer([0x83, 0x03] + codes, [0xC3, 0x03])

    def finish(self, how):
        """By a stop, or by P3 max in a tick or a drop."""
        if how == "82":
            self.ask_and_answer([0x82], [0xC2])
        else:
            self.call(how, self.link.windows[3] + 1)

    def between(self, what):
        """b an outside byte, 8 a report 8, d a drop; or a start that fails: r run out, c left to be closed, w by its low, or by a byte's s side, e time or v value."""
        idle = self.link.idle()
        if what == "b":
            self.hear("t", 0x00, 1_000)
        elif what == "8":
            self.call("W", max(idle - 1, 0))
        elif what == "d":
            self.call("D", idle)
        elif what == "w":
            self.call("W", idle, 23_999)
        else:
            self.call("A", idle, 1_000)
        if what == "r":
            self.wait(300_001)
        elif what == "s":
            self.hear("t", 0x55, 60_000)
        elif what == "e":
            self.hear("e", 0x55, 59_999)
        elif what == "v":
            self.hear("e", 0x54, 60_000)


# ---- cars


GAPS = 0, 19_999, 20_000, 20_001, 24_999, 25_000, 50_000, 50_001, 54_999, 55_000, 299_999, 300_000, 5_000_000, 5_000_001, 6_000_000


def cars(kb):
    """Lists that go through a car's link: sizes, heads, sides, what may come before an event and how long, events of every kind, and replies too close."""
    s = Cars(kb)
    s.sizes([*range(1, 31), 69, 133, 261, 267, 517])
    s.heads(range(int(kb == 0x94), 256, 2))
    s.other_sides(range(1, 13), (0, 5_000, 20_000, 20_001))
    s.replies(GAPS[:10])
    yield s
    s = Cars(kb)
    for before in s.befores():
        some = before == "nothing" or before[1] in ("right", "over")
        for gap in GAPS if some else (0, 20_000, 20_001, 50_001, 5_000_001):
            for what in "teTDAWw":
                s.meet(before, what, gap)
    yield s
    s = Cars(kb)
    s.merged(range(256), [(5, 5)], [0])
    s.merged((0x00, 0x80, 0x01, 0x40, 0x7F, 0xC0), ((5, 5), (5, 6), (6, 5), (6, 6), (7, 5)), (5_000, 20_000, 20_001))
    s.data()
    s.slow_starts()
    yield s


def both_editions():
    """A car after a 14230 link and the other way, each ended in several ways: what one has set must not show in the other."""
    s = Sweep()
    for kb, _ in CAR_KEYS:
        for codes in None, [0x00, 0x28, 0x20, 0x01, 0x00]:
            for end in "82", "T", "D", "A":
                s.session(0xD5, codes)
                s.hear("t", 0x01, s.link.windows[2])
                s.hear("e", 0x48, 0)
                s.wait(20_001)
                if end != "A":
                    s.finish(end)
                s.connect(kb, kb)
                for gap in 54_999, 55_000:
                    s.car_whole("t", [0x82], gap)
                    s.car_whole("e", [0xC2], 25_000)
                s.wait(300_000)
                if end in "TD":
                    s.call(end, 5_000_001 if end == "T" else 310_000)
                s.hear("e", 0x48, 310_000)
                s.call("A", 0 if end == "T" else 299_999)
                s.session(0x67, codes)
                s.probe(2)
    return s


def both_pairs():
    """A car after one with the other key bytes, each ended in several ways: neither P2 min nor what ends a request must come from the one before."""
    s = Sessions(0)
    for end, wait in ("T", 5_000_001), ("D", 20_000), ("A", 0):
        for kb, _ in CAR_KEYS:
            s.connect(kb, kb)
            for gap in 0, 20_000, 24_999, 25_000:
                s.car_whole("t", [0x01, 0x0C], 55_000)
                s.car_whole("e", [0x41, 0x0C], gap)
            s.call(end, wait)
    return s


def held(kb):
    """Lists that end 20 ms after a message that is right: it is still held."""
    for side in "t", "e":
        s = Cars(kb)
        s.up()
        s.say(side, s.faulty(side, "right"))
        s.call("T", 20_000)
        yield s


# ---- lines


def line(event):
    kind, side, value, start, end = event
    if kind == "B":
        return b"B %s %02X %d %d" % (side.encode(), value, start, end)
    if kind == "A":
        return b"A %02X %d %d" % (value, start, end)
    if kind == "W":
        return b"W %d %d" % (start, end)
    return b"%s %d" % (kind.encode(), start)


def zeros(d, text):
    """Times with zeros in front, up to 13 digits."""
    return re.sub(rb"(?<= )[0-9]{3,}", lambda m: m[0].rjust(d.pick(13, d.below(14)), b"0"), text)


def any_bytes(d, n):
    return bytes(d.below(256) for _ in range(n))


def spoil(d, good):
    """A good line with something wrong, now and then nothing."""
    at = d.below(len(good) + 1)
    space = d.pick(*[i for i, c in enumerate(good) if c == 32])
    fields = good.split(b" ")
    which = d.below(len(fields))

    def field(new):
        return b" ".join(fields[:which] + new + fields[which + 1 :])

    ways = (
        lambda: b"",
        lambda: good[:at],
        lambda: good[at:],
        lambda: good[:at] + good[at + 1 :],
        lambda: good[:at] + any_bytes(d, 1) + good[at:],
        lambda: good[:at] + any_bytes(d, 1) + good[at + 1 :],
        lambda: good[:at] + d.pick(b" ", b"\t", b"\r", b"\0", b"+", b"-", b".", b"_", b"0") + good[at:],
        lambda: good[:space] + d.pick(b"  ", b"\t", b"\0", b",", b"", b"\n") + good[space + 1 :],
        lambda: good + d.pick(b" ", b"\r", b"\t", b"\0", b"  ", b" 1", b" 00", b"#", b"\x0b"),
        lambda: d.pick(b" ", b"\t", b"\0", b"+", b"\xef\xbb\xbf") + good,
        lambda: d.pick(good.lower(), good.upper(), good.swapcase()),
        lambda: d.pick(b"X", b"a", b"w", b"b", b"t", b"d", b"C", b"E", b"S", b"U", b"@", b"BB", b"") + good[1:],
        lambda: field([]),
        lambda: field([fields[which]] * 2),
        lambda: field([d.pick(b"+", b"-", b"0x", b"'", b"00000000000000") + fields[which]]),
        lambda: field([fields[which].rjust(14, b"0")]),
        lambda: field([fields[which] + d.pick(b"e3", b".0", b"us", b"h")]),
        lambda: field([d.pick(b"99999999999999", b"18446744073709551617", b"4000000000001", b"9" * 13, b"T", b"t", b"e", b"x", b"")]),
        lambda: field([d.pick(b"1", b"111", b"aF", b"Ff", b"G0", b"0G", b"@1", b"1:", b"/1", b"1`", b"g1", b"a1")]),
        lambda: any_bytes(d, d.below(40)),
        lambda: bytes(d.pick(*LETTERS) for _ in range(d.below(36))),
    )
    return d.pick(*ways)()


def long_line(d, good):
    """A line of up to 100,000 bytes and some more, often with a good one at an end of it."""
    n = d.pick(1, 14, 30, 35, 64, 255, 256, 1000, 4095, 4096, 65_535, 65_536, 65_537, 100_000, d.below(100_000), 65_536 - d.below(80))
    more = any_bytes(d, 257).replace(b"\n", b"") * (n // 200 + 1)
    return d.pick(
        good + b" " * n,
        good + b"\0" * n,
        good + b"0" * n,
        good + b" " + good * (n // len(good) + 1),
        b"T " + b"0" * n + b"1",
        b" " * n + good,
        b"x" * n + good,
        good + more[:n],
        more[:n] + good,
        b"B" * n,
        b"\r" * n,
    )


def every_byte():
    """Lines of each kind with every byte at every place, the places in front last: there a digit may move the clock far."""
    out = []
    for good in (b"B t 81 350000 350960", b"A 33 5350000 7350000", b"W 10300000 10325000", b"D 20000000", b"T 3000000000000"):
        for at in reversed(range(len(good) + 1)):
            for value in range(256):
                out.append(good[:at] + bytes([value]) + good[at + 1 :])
            for value in b"0 \r\0A":
                out.append(good[:at] + bytes([value]) + good[at:])
            out.append(good[:at] + good[at + 1 :])
            out.append(good[:at])
    return out


def tails():
    """Long lines that end in what would be a good one, the rest of it having any of many sizes."""
    return [b"x" * n + b"T %d" % (n * 1000) for n in range(1, 120)]


def mixed(d, events, one_bad_in, one_changed_in, long_lines):
    """The lines of events, with bad ones between them; some of them changed where the list is of that kind."""
    out = []
    long_at = {d.below(len(events)) for _ in range(long_lines)}
    for i, event in enumerate(events):
        good = line(event)
        if i in long_at:
            out.append(long_line(d, good))
        while one_bad_in and d.one_in(one_bad_in):
            bad = spoil(d, good)
            if not any(READABLE.fullmatch(part) for part in bad.split(b"\n")):
                out.append(bad)
        if d.one_in(10):
            good = zeros(d, good)
        out.append(spoil(d, good) if one_changed_in and d.one_in(one_changed_in) else good)
    return out


# ---- lists


def text(lines):
    return b"".join(part + b"\n" for part in lines)


def fixed_lists(reached):
    """Lists that every seed has; and what they have reached."""

    def lines_of(sessions):
        reached.update(sessions.turns)
        return text(map(line, sessions.events))

    own = text(map(line, example().events))
    yield from (b"", b"\n", b"\n\n\n", b"T 5", b"T 5\n", b" ", b"\0", b"T 5\n\n", b"T 5\r\n", b"T 4000000000000\nT 4000000000001\n")
    yield from (own, own[:-1], own + b"\n", own[:-1] + b"\r", b"\n" + own)
    yield from map(lines_of, scripts())
    for sweep in (Sweep.keys, Sweep.initializations, Sweep.first_bytes, Sweep.codes, Sweep.answers, Sweep.idle_times):
        yield lines_of(sweep(Sweep()))
    for kb, _ in CAR_KEYS:
        yield from map(lines_of, (*cars(kb), *held(kb)))
    yield from map(lines_of, (pairs((CAR, 0x00, 0x11, 0x32, 0x34, 0xCC, 0xFF), (0x03, 0x00, 0x83, 0x80)), both_editions(), both_pairs()))
    yield text(every_byte())
    yield text(tails())
    yield from (one * 40_000 for one in (b"\n", b"W 0 0\n", b"B t 00 0 0\n"))  # more output than input: a buffer fills before its part is read
    yield from (b"x" * size + b"T 5\nT 4\n" for size in (256, 512, 1024, 2048, 4096, 8192, 16_384, 32_768, 65_536, 131_072))


def ended(d, whole):
    """The whole list, or one without its last line feed, or cut anywhere."""
    r = d.below(8)
    if r == 0:
        return whole[: d.below(len(whole) + 1)]
    return whole[:-1] if r < 3 else whole


def noise(d):
    n = d.pick(1, 2, 100, 3000, d.below(20_000))
    if d.one_in(2):
        return any_bytes(d, n)
    return bytes(d.pick(*LETTERS) for _ in range(n))


def random_list(seed, n, reached):
    """A list of about n lines; and the number of its events, where all of them come whole. Then what they have reached counts too."""
    d = Dice(seed)
    talk = Talk(seed + 1).run(n)
    if d.one_in(4):
        lines = mixed(d, talk.events, d.pick(2, 20), d.pick(3, 20, 100), d.pick(0, 0, 1, 3))
        return ended(d, text(lines)), 0
    reached.update(talk.turns)
    lines = mixed(d, talk.events, d.pick(0, 100, 10, 2), 0, d.pick(0, 0, 0, 0, 1, 2))
    return text(lines)[: d.pick(None, None, -1)], talk.link.taken


def lists(seed, least, reached):
    yield from fixed_lists(reached)
    d = Dice(seed)
    seeds = (seed * 1_000_003 + i * 7919 for i in range(1, 10**9))
    yield from (noise(d) for _ in range(12))
    events = 0
    for i in range(250):
        n = d.pick(1, 2, 3, 5, 10, 30, 60) if i % 4 == 0 else 50 + d.below(max(least // 400, 200))
        whole, taken = random_list(next(seeds), n, reached)
        events += taken
        yield whole
    while events < least:
        whole, taken = random_list(next(seeds), max(least // d.pick(10, 20, 30), 1000), reached)
        events += taken
        yield whole


def main(seed, least, room):
    os.makedirs(room)
    reached = set()
    for i, whole in enumerate(lists(seed, least, reached)):
        with open(os.path.join(room, f"list-{i:03}"), "wb") as f:
            f.write(whole)
    if TURNS - reached:
        sys.exit(f"the made-up lists do not reach {sorted(TURNS - reached, key=str)}")


if __name__ == "__main__":
    if len(sys.argv) != 4 or not sys.argv[1].isdigit() or not sys.argv[2].isdigit():
        sys.exit(__doc__)
    main(int(sys.argv[1]), int(sys.argv[2]), sys.argv[3])
