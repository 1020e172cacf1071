#!/usr/bin/env python3
"""Works out what the program `sweep` must print, from the rules and not from this repository's definitions.

The rules are document 01's, "Key bytes", "Frames" and "Timing", and document 02's Two: they are written down here a second time, in another language
and in other terms (tables, lists of bytes, sets of values), so that a rule misread in one place shows as a difference.
Use: tests/reference.py > crates/sweep/stdout, or, to compare, tests/reference.py | diff crates/sweep/stdout -
"""

GOOD_KB1 = bytes.fromhex("D5D657D9DA5B5D5EDFE5E667E9EA6B6D6EEF")
PHYSICAL, FUNCTIONAL = 1, 2
SHORTEST, FORMAT_BYTE, EXTRA_BYTE = 0, 1, 2
HOLDS = {FORMAT_BYTE: 63, EXTRA_BYTE: 255}
NO_LIMIT = "no limit"


# ---- key bytes


def bits(kb1):
    return [int(b) for b in reversed(format(kb1, "08b"))]


def is_good(kb1, kb2):
    b = bits(kb1)
    conditions = (
        kb2 == 0x8F,
        sum(b) in (1, 3, 5, 7),
        b[6],
        (b[4], b[5]) in ((0, 1), (1, 0)),
        b[0] or b[1],
        b[2] or b[3],
    )
    return all(conditions)


def forms_taken(kb1):
    b = bits(kb1)
    taken = set()
    if b[2]:
        taken.add(0)
    if b[3]:
        taken.add(PHYSICAL)
        if not b[4]:
            taken.add(FUNCTIONAL)
    return taken


# ---- frames


def frames_of(kb1, form, target, source, data):
    """The frames that these data can have, by where their length stands."""
    top = {0: 0b00, PHYSICAL: 0b10, FUNCTIONAL: 0b11}[form] << 6
    addresses = [target, source] if form else []
    n = len(data)
    heads = {FORMAT_BYTE: [top | n % 64] + addresses, EXTRA_BYTE: [top] + addresses + [n % 256]}
    frames = {}
    for place, announced in zip((FORMAT_BYTE, EXTRA_BYTE), bits(kb1)):
        if announced and n in range(1, HOLDS[place] + 1):
            frame = heads[place] + list(data)
            frames[place] = frame + [sum(frame) & 0xFF]
    return frames


def build(choice, kb1, kb2, form, target, source, data, out):
    """The number and the length; writes into out."""
    if not is_good(kb1, kb2):
        return 5, 0
    if choice not in (SHORTEST, *HOLDS) or form not in forms_taken(kb1):
        return 6, 0
    frames = frames_of(kb1, form, target, source, data)
    frame = min(frames.values(), key=len, default=None) if choice == SHORTEST else frames.get(choice)
    if frame is None:
        return 7, 0
    if len(frame) > len(out):
        return 8, 0
    out[: len(frame)] = frame
    return 0, len(frame)


def read(kb1, kb2, s):
    """number, form, target, source, start, length."""

    def refuse(no):
        return no, 0, 0, 0, 0, 0

    if not is_good(kb1, kb2):
        return refuse(5)
    if not s:
        return refuse(7)
    form = {0b00: 0, 0b01: None, 0b10: PHYSICAL, 0b11: FUNCTIONAL}[s[0] >> 6]
    if form not in forms_taken(kb1):
        return refuse(6)
    rest = list(s[1:])
    target = source = 0
    low = s[0] & 0b111111
    if not bits(kb1)[0 if low else 1]:
        return refuse(7)
    try:
        if form:
            target, source = rest.pop(0), rest.pop(0)
        n = low or rest.pop(0)
    except IndexError:
        return refuse(7)
    if n == 0 or len(rest) != n + 1:
        return refuse(7)
    if sum(s[:-1]) % 256 != s[-1]:
        return refuse(9)
    return 0, form, target, source, len(s) - 1 - n, n


# ---- timing, in microseconds

P2_MAX = {code: 25_000 * code for code in range(0x01, 0xF1)}
P2_MAX.update({0xF0 + k: 6_400_000 * k for k in range(1, 15)})
P2_MAX[0xFF] = NO_LIMIT
P3_MAX = {code: 250_000 * code for code in range(0x00, 0xFF)}
P3_MAX[0xFF] = NO_LIMIT
MINIMUM = {code: 500 * code for code in range(256)}


NORMAL = (25_000, 50_000, 55_000, 5_000_000, 5_000)
EXTENDED = (0, 1_000_000, 5_500, 5_000_000, 5_000)


def under(low, high):
    return high == NO_LIMIT or low < high


def allowed(p2min, p2max, p3min, p3max, p4min):
    return under(p2min, p2max) and under(p3min, p3max) and p4min < 20_000 and p3min > p4min


def decode(codes):
    a, b, c, d, e = codes
    if b in P2_MAX:
        windows = (MINIMUM[a], P2_MAX[b], MINIMUM[c], P3_MAX[d], MINIMUM[e])
        if allowed(*windows):
            return 0, windows
    return 10, (0, 0, 0, 0, 0)


def encode(windows):
    found = []
    for value, table in zip(windows, (MINIMUM, P2_MAX, MINIMUM, P3_MAX, MINIMUM)):
        codes = [code for code, stands in table.items() if stands == value]
        found.append(codes)
    if all(len(codes) == 1 for codes in found) and allowed(*windows):
        return 0, tuple(codes[0] for codes in found)
    return 10, (0, 0, 0, 0, 0)


# ---- what the program makes up, counts and mixes


def mix(d, *xs):
    for x in xs:
        d = (d * 31 + x) % 2**32
    return d


def mix_wide(d, x):
    return mix(d, x >> 32, x % 2**32)


def mix_windows(d, windows):
    for w in windows:
        d = mix(d, 77) if w == NO_LIMIT else mix_wide(d, w)
    return d


def after(seed, times=1):
    for _ in range(times):
        seed = (seed * 1664525 + 1013904223) % 2**32
    return seed


def top(seed):
    return seed // 65536


class Tally:
    """Cases of one kind: how many were taken, how many came back (codes that their windows have, slices that read well), and a digest of all answers."""

    def __init__(self, what):
        self.what, self.taken, self.back, self.digest = what, 0, 0, 0

    def show(self):
        print(self.what)
        print(f"  taken: {self.taken}\n  came back: {self.back}\n  digest: {self.digest}")

    def pair(self, kb1, kb2):
        if is_good(kb1, kb2):
            self.taken += 1
            self.digest = mix(self.digest, kb1, kb2)

    def codes(self, codes):
        no, windows = decode(codes)
        self.digest = mix_windows(mix(self.digest, no), windows)
        if no == 0:
            self.taken += 1
            self.back += encode(windows) == (0, tuple(codes))

    def set(self, kb1):
        self.digest = mix_windows(self.digest, EXTENDED if bits(kb1)[4] else NORMAL)

    def read(self, kb1, kb2, s):
        no, form, target, source, start, length = read(kb1, kb2, s)
        self.back += no == 0
        self.digest = mix_wide(self.digest, no << 24 | form << 16 | target << 8 | source)
        self.digest = mix_wide(self.digest, start << 16 | length)
        self.digest = mix(self.digest, *s[start : start + length])

    def plan(self, seed, choice):
        data, out = made_bytes(seed, 260), made_bytes(after(seed), 270)
        a = after(seed)
        b = after(a)
        kb1, kb2, form = made_kb1(a), 0x8F, top(a) % 4
        target, source = top(b) % 256, top(after(b)) % 256
        n, room = made_length(mix(seed, 1), 261), made_length(mix(seed, 2), 271)
        lent = out[:room]
        no, size = build(choice, kb1, kb2, form, target, source, data[:n], lent)
        out[:room] = lent
        self.taken += no == 0
        self.digest = mix(mix_wide(self.digest, no << 16 | size), *out)
        self.read(kb1, kb2, out[:size])

    def slice(self, seed):
        s = made_bytes(seed, 270)[: made_length(mix(seed, 1), 270)]
        dress(mix(seed, 2), s)
        self.read(made_kb1(mix(seed, 3)), 0x8F, s)


def made_bytes(seed, n):
    made = []
    for _ in range(n):
        seed = after(seed)
        made.append(top(seed) % 256)
    return made


def made_kb1(seed):
    s = after(seed)
    return top(after(s)) % 256 if top(s) % 8 == 0 else GOOD_KB1[top(after(s)) % 18]


def made_length(seed, most):
    s = after(seed)
    return top(after(s)) % (70 if top(s) % 2 == 0 else most)


def dress(seed, s):
    """Makes s look like a frame of its size, now and then one off, with mostly the right checksum."""
    if len(s) < 5:
        return
    a = after(seed)
    b = after(a)
    size = len(s) - (top(b) % 8 == 7)
    mode = 0x80 | b // 524288 % 2 * 0x40
    layouts = (
        {0: (size - 2) % 64, 4: (size - 5) % 256},
        {0: mode | (size - 4) % 64, 4: (size - 5) % 256},
        {0: 0, 1: (size - 3) % 256},
        {0: mode, 3: (size - 5) % 256},
    )
    for at, byte in layouts[top(a) % 4].items():
        s[at] = byte
    s[-1] = (sum(s[:-1]) + (b // 1048576 % 8 == 7)) % 256


def made_codes(seed):
    seeds = [after(seed, k) for k in range(1, 6)]
    return tuple(top(s) % m for s, m in zip(seeds, (256, 256, 256, 256, 64)))


def main():
    good = [kb1 for kb1 in range(256) for kb2 in range(256) if is_good(kb1, kb2)]
    assert good == sorted(GOOD_KB1), "the 18 values that the rules list, and no other"
    listed = [(0, code, 0x0B, 0x14, 0x0A) for code in range(256)]
    listed += [(0x32, 0x02, 0x6E, code, 0x0A) for code in range(256)]
    listed += [(0, 1, p3min, 0xFF, p4min) for p4min in range(256) for p3min in range(256)]
    listed += [(50 * k + about, k, 0x6E, 0x14, 0x0A) for k in range(1, 6) for about in (-1, 0, 1)]
    runs = (
        ("each pair of key bytes", 65536, lambda t, i: t.pair(i // 256, i % 256)),
        ("each code of P2 and P3 max, P3 min with P4 min, and P2 min about P2 max", 66063, lambda t, i: t.codes(listed[i])),
        ("20000 made-up codes", 20000, lambda t, i: t.codes(made_codes(mix(3, i)))),
        ("the set of each KB1", 256, lambda t, i: t.set(i)),
        ("20000 made-up plans, built by choice 0 and read", 20000, lambda t, i: t.plan(mix(5, i), SHORTEST)),
        ("the same plans by choice 1", 20000, lambda t, i: t.plan(mix(5, i), FORMAT_BYTE)),
        ("the same plans by choice 2", 20000, lambda t, i: t.plan(mix(5, i), EXTRA_BYTE)),
        ("the same plans by choice 3", 20000, lambda t, i: t.plan(mix(5, i), 3)),
        ("20000 made-up slices, read", 20000, lambda t, i: t.slice(mix(6, i))),
    )
    for what, n, case in runs:
        tally = Tally(what)
        for i in range(n):
            case(tally, i)
        tally.show()


if __name__ == "__main__":
    main()
