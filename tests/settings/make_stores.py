#!/usr/bin/env python3
"""Makes what the program `settings_run` is run on: the store files, the calls and the output that is expected of it.

    python3 tests/settings/make_stores.py            writes crates/settings_run/data/*, stdin and stdout
    python3 tests/settings/make_stores.py --check    compares them with what it would write

It is written from requests #102 and #107 and document 01 alone and has a model of its own: the words of the unit, requests
for initialise, and moves of one step, with one channel at most to be served in a tick. A call outside that model stops it.
Each save and load of the first part has its answer beside it, by hand, and the model has to give the same. The last part
goes by chance, always the same.

Lines of the calls: `F name` lends the store of that file and prints `F` and its length. `S` saves, `L` loads the newest and
`L v` version v: they print the letter and the version, or `N` and the number. Behind a save stands each row of 32 bytes of
the store that it changed, as `B`, the row's number from the start of the store and the bytes; a load gets the store to read
only and cannot change it. Every other line is one of the script program.
"""

import struct
import sys
from pathlib import Path

OUT = Path(__file__).resolve().parents[2] / "crates" / "settings_run"
BLOCK = 512
LAST = 0xFFFFFFFF

PARAMETERS = [0xF00 + 16 * c + 2 * i for c in range(16) for i in range(8 if c >= 14 else 6)]
CFSR = [0xE0C, 0xE0E, 0xE10, 0xE12]
CPR = [0xE1C, 0xE1E]
SETTINGS = PARAMETERS + CFSR + CPR
CIER, CISR, HSQR, HSRR = 0xE0A, 0xE20, [0xE14, 0xE16], [0xE18, 0xE1A]
REGISTERS = list(range(0xE0A, 0xE22, 2))
assert len(PARAMETERS) == 100 and 3 + len(SETTINGS) == 109


# ---- blocks and stores

def sealed(words):
    """255 words and the last one that makes them sound."""
    assert len(words) == 255
    return struct.pack(">256H", *words, (0xFFFF - sum(words)) % 65536)


def block(version, values, layout=1, unused=()):
    words = [layout, version >> 16, version & 0xFFFF, *values]
    words += [0] * (255 - len(words))
    for at, value in unused:
        assert 109 <= at < 255
        words[at] = value
    return sealed(words)


def words_of(b):
    return list(struct.unpack(">256H", b))


def is_sound(b):
    words = words_of(b)
    return words[255] == (0xFFFF - sum(words[:255])) % 65536


def version_of(b):
    words = words_of(b)
    return words[1] * 65536 + words[2]


def damaged(b, at, by=1):
    """The block with one word changed."""
    words = words_of(b)
    words[at] = (words[at] + by) % 65536
    out = struct.pack(">256H", *words)
    assert not is_sound(out)
    return out


def swapped(b, i, k):
    words = words_of(b)
    words[i], words[k] = words[k], words[i]
    return struct.pack(">256H", *words)


ERASED = b"\xff" * BLOCK
ZEROS = bytes(BLOCK)


class Chance:
    """Numbers by chance, the same ones with every version of Python."""

    def __init__(self, seed):
        self.x = seed

    def below(self, n):
        self.x = (self.x * 6364136223846793005 + 1442695040888963407) % 2 ** 64
        return (self.x >> 33) % n

    def one_of(self, items):
        return items[self.below(len(items))]


def values(seed):
    """Some value for every setting, all bits in use."""
    chance = Chance(seed)
    return [chance.below(65536) for _ in SETTINGS]


# ---- the unit, as far as the calls below need it

class Unit:
    def __init__(self):
        self.words = dict.fromkeys(REGISTERS + PARAMETERS, 0)
        self.pending, self.initialised, self.bound, self.moves = {}, set(), set(), {}
        self.tcr1 = self.pins = self.ticks = 0

    def parameter(self, c, i):
        return self.words[0xF00 + 16 * c + 2 * i]

    def put(self, c, i, value):
        self.words[0xF00 + 16 * c + 2 * i] = value

    def function(self, c):
        return self.words[CFSR[3 - c // 4]] >> 4 * (c % 4) & 15

    def enabled(self, c):
        return self.words[CPR[1 - c // 8]] >> 2 * (c % 8) & 3 != 0

    def free(self, c):
        return c not in self.bound and c not in self.pending

    def all_free(self):
        return all(self.free(c) for c in range(16))

    def read(self, a):
        if a in HSRR:
            first = 8 if a == HSRR[0] else 0
            return sum(self.pending.get(first + k, 0) << 2 * k for k in range(8))
        if a in self.words:
            return self.words[a]
        return 0 if 0xF00 <= a <= 0xFFE and a % 2 == 0 else None

    def write(self, a, value):
        """0 if taken, or the question that says no."""
        if self.read(a) is None:
            return 1
        if a in HSRR:
            return self.request(8 if a == HSRR[0] else 0, value)
        if a >= 0xF00:
            return self.write_parameter(a, value)
        if a in CFSR:
            first = 4 * (3 - CFSR.index(a))
            differ = [first + k for k in range(4) if (value ^ self.words[a]) >> 4 * k & 15]
            if not all(self.free(c) for c in differ):
                return 2
        self.words[a] = value & self.words[a] if a == CISR else value
        return 0

    def write_parameter(self, a, value):
        if a not in self.words:
            return 0
        c, i = (a - 0xF00) // 16, a % 16 // 2
        assert not (c in self.moves and i == 3), "a target while bound is not in this model"
        if not self.free(c):
            return 2
        self.words[a] = value
        if i == 0:
            self.initialised.discard(c)
        return 0

    def request(self, first, value):
        asked = [(first + k, value >> 2 * k & 3) for k in range(8) if value >> 2 * k & 2]
        assert len(asked) <= 1, "one request at a time in this model"
        for c, kind in asked:
            refused = self.refusal(c, kind)
            if refused:
                return refused
            self.pending[c] = kind
            if kind == 3:
                group = range(c, self.parameter(c, 5) % 16 + 1)
                self.bound |= set(group)
                self.moves[c] = {"group": group, "match": None}
        return 0

    def refusal(self, c, kind):
        assert not (c in self.moves and kind == 3), "a request while stepping is not in this model"
        if not self.free(c):
            return 2
        if self.function(c) != 13:
            return 3
        control, pattern = self.parameter(c, 0), self.parameter(c, 1)
        if kind == 2:
            fits = control >> 5 & 15 == 4 and control & 3 == (1 if pattern >> 15 else 2)
            return 0 if fits else 4
        last = self.parameter(c, 5) - 0x100
        assert c < last <= c + 7, "steps with N = 1 only in this model"
        group = range(c, last + 1)
        if not all(self.function(g) == 13 and g in self.initialised and self.free(g) for g in group):
            return 6
        assert self.parameter(c, 4) == 1, "moves from MOD_CNT 0 only in this model"
        assert all(self.parameter(g, 0) == self.parameter(g, 1) for g in group)
        assert 128 <= self.period(c) <= 0x7FFF and self.parameter(c, 3) == self.parameter(c, 2) + 1 <= 0xFFFE
        return 0

    def period(self, c):
        return self.parameter(c + 1, 3) - 2 * self.parameter(c + 1, 2)

    def tick(self):
        self.tcr1 = (self.tcr1 + 1) % 65536
        self.ticks += 1
        for move in self.moves.values():
            if move["match"] == self.tcr1:
                for g in move["group"]:
                    self.set_pin(g, self.parameter(g, 0) >> 15)
        ready = [c for c in range(16) if self.enabled(c) and self.asks(c)]
        assert len(ready) <= 1, "one ready channel a tick in this model"
        for c in ready:
            self.serve(c)

    def asks(self, c):
        return c in self.pending or c in self.moves and self.moves[c]["match"] == self.tcr1

    def serve(self, c):
        kind = self.pending.pop(c, 0)
        if kind == 2:
            self.set_pin(c, self.parameter(c, 0) & 1)
            self.put(c, 0, self.parameter(c, 1))
            self.initialised.add(c)
            self.words[CISR] |= 1 << c
        if kind == 3:
            self.step(c)
        if c in self.moves and self.moves[c]["match"] == self.tcr1:
            self.bound -= set(self.moves.pop(c)["group"])
            self.words[CISR] |= 1 << c

    def step(self, c):
        """The one step of a move: position and MOD_CNT up by one, the group's patterns one place to the right."""
        self.put(c, 2, self.parameter(c, 2) + 1)
        self.put(c, 4, 0x101)
        for g in self.moves[c]["group"]:
            w = self.parameter(g, 0)
            self.put(g, 0, w >> 1 | w % 2 << 15)
        self.moves[c]["match"] = (self.tcr1 + self.period(c)) % 65536

    def set_pin(self, c, level):
        self.pins = self.pins & ~(1 << c) | level << c


# ---- the two calls

def blocks_of(store):
    return [bytes(store[i:i + BLOCK]) for i in range(0, len(store), BLOCK)]


def has_length(store):
    return len(store) % BLOCK == 0 and 2 <= len(store) // BLOCK <= 128


def save(unit, store):
    """The version that was saved, or minus the number of the no."""
    if not has_length(store):
        return -12
    blocks = blocks_of(store)
    sound = [b for b in blocks if is_sound(b)]
    greatest = max(map(version_of, sound), default=0)
    if greatest == LAST:
        return -12
    unsound = [i for i, b in enumerate(blocks) if not is_sound(b)]
    at = unsound[0] if unsound else min(range(len(blocks)), key=lambda i: (version_of(blocks[i]), i))
    store[at * BLOCK:(at + 1) * BLOCK] = block(greatest + 1, [unit.words[a] for a in SETTINGS])
    return greatest + 1


def load(unit, which, store):
    if not has_length(store):
        return -12
    sound = [b for b in blocks_of(store) if is_sound(b)]
    version = max(map(version_of, sound), default=None) if which is None else which
    picked = [b for b in sound if version_of(b) == version]
    if not picked:
        return -12
    words = words_of(picked[0])
    if words[0] != 1:
        return -13
    if not unit.all_free():
        return -2
    for a, value in zip(SETTINGS, words[3:109]):
        assert unit.write(a, value) == 0
    return version


# ---- the calls and what they print

class Script:
    def __init__(self):
        self.unit, self.store, self.files, self.calls, self.out = Unit(), bytearray(), {}, [], []

    def line(self, call, *answers):
        self.calls.append(call)
        self.out.extend(answers)

    def other(self, call):
        """A line of no form."""
        self.line(call, "E")

    def file(self, name, *blocks):
        assert name not in self.files
        self.files[name] = b"".join(blocks)
        self.lend(name)

    def lend(self, name):
        self.store = bytearray(self.files[name])
        self.line("F " + name, "F %d" % len(self.store))

    def kept(self, call, letter, before, got, answer):
        says = "%s %d" % (letter, got) if got >= 0 else "N %d" % -got
        assert answer in (None, says), (call, answer, says)
        rows = range(0, len(before), 32)
        changed = [i for i in rows if before[i:i + 32] != self.store[i:i + 32]]
        self.line(call, says, *("B %d %s" % (i // 32, self.store[i:i + 32].hex().upper()) for i in changed))
        return changed

    def save(self, answer=None, into=None):
        before = bytes(self.store)
        changed = self.kept("S", "S", before, save(self.unit, self.store), answer)
        at = {i // BLOCK for i in changed}
        assert into is None or at == {into}, (answer, into, at)

    def load(self, answer=None, version=None):
        before = bytes(self.store)
        call = "L" if version is None else "L %d" % version
        assert not self.kept(call, "L", before, load(self.unit, version, self.store), answer)

    def both(self, answer):
        """A save and loads that are all refused the same way."""
        self.save(answer)
        self.load(answer)
        self.load(answer, 1)

    def write(self, a, value, refused=0):
        got = self.unit.write(a, value)
        assert got == refused, (hex(a), hex(value), got, refused)
        self.line("W %03X %04X" % (a, value), "N %d" % got if got else "W")

    def read(self, a):
        value = self.unit.read(a)
        self.line("R %03X" % a, "N 1" if value is None else "R %04X" % value)

    def read_all(self):
        for a in REGISTERS + list(range(0xF00, 0x1000, 2)):
            self.read(a)

    def ticks(self, n):
        lines = []
        for _ in range(n):
            before = self.unit.pins
            self.unit.tick()
            if self.unit.pins != before:
                lines.append("P %d %04X" % (self.unit.ticks, self.unit.pins))
        self.line("T %d" % n, *lines, "T %d" % n)

    def parameter(self, c, i, value, refused=0):
        self.write(0xF00 + 16 * c + 2 * i, value, refused)

    def initialise(self, c, refused=0):
        self.write(HSRR[1 - c // 8], 2 << 2 * (c % 8), refused)

    def step(self, c, refused=0):
        self.write(HSRR[1 - c // 8], 3 << 2 * (c % 8), refused)

    def functions(self):
        """All channels of function 13, none enabled."""
        for a in CFSR:
            self.write(a, 0xDDDD)
        self.enable(0)

    def enable(self, value):
        for a in CPR:
            self.write(a, value)

    def fill(self, seed):
        for a, value in zip(SETTINGS, values(seed)):
            self.write(a, value)


def nothing_lent(s):
    for line in ("F", "F ", "F none", "S ", "SS", "S 1", " S", "s", "L ", "L x", "L 1x", "L -1", "L  1", "L1", "L 4294967296",
                 "L 9999999999", "L 10000000000", "L 99999999999999999999", "l", "B 1", ""):
        s.other(line)
    s.both("N 12")


def one_after_another(s):
    s.file("erased3", ERASED * 3)
    s.load("N 12")
    s.load("N 12", 0)
    s.load("N 12", 1)
    s.fill(1)
    s.save("S 1", into=0)
    s.write(0xF00, 0x1234)
    s.write(0xFFE, 0xFEDC)
    s.save("S 2", into=1)
    s.load("N 12", 3)
    s.write(CFSR[0], 0xABCD)
    s.write(CPR[1], 0x1B1B)
    s.write(CIER, 0x0FF0)
    s.write(HSQR[0], 0x5A5A)
    s.write(HSQR[1], 0xC33C)
    s.save("S 3", into=2)
    s.fill(2)
    s.read_all()
    s.load("L 1", 1)
    s.read_all()
    s.load("L 3")
    s.read(0xF00)
    s.load("L 2", 2)
    s.read_all()
    s.fill(3)
    s.save("S 4", into=0)
    s.load("N 12", 1)
    s.load("L 3", 3)
    s.read_all()
    s.load("L 2", 2)
    s.load("L 4", 4)
    s.read_all()
    s.save("S 5", into=1)
    s.load("N 12", 2)
    s.load("L 3", 3)
    s.save("S 6", into=2)
    s.save("S 7", into=0)
    s.load("N 12", 4)
    s.load("L 5", 5)
    s.load("L 7")
    s.read_all()


def equal_versions(s):
    s.file("equal", block(9, values(11)), block(7, values(12)), block(9, values(13)), block(7, values(14)))
    s.load("L 9")
    s.read_all()
    s.load("L 7", 7)
    s.read_all()
    s.save("S 10", into=1)
    s.load("L 7", 7)
    s.read(0xF0A)
    s.save("S 11", into=3)
    s.load("N 12", 7)
    s.load("L 9", 9)
    s.save("S 12", into=0)
    s.load("L 9", 9)
    s.read_all()
    s.file("equal-unsound", damaged(block(9, values(15)), 4), block(9, values(16)), block(9, values(17)))
    s.load("L 9")
    s.read_all()
    s.save("S 10", into=0)
    s.save("S 11", into=1)
    s.load("L 9", 9)
    s.read_all()


def other_layouts(s):
    s.file("layouts", block(3, values(21)), block(5, values(22), layout=2), block(4, values(23)))
    s.load("N 13")
    s.load("N 13", 5)
    s.load("N 12", 6)
    s.read(0xF00)
    s.load("L 4", 4)
    s.read_all()
    s.load("L 3", 3)
    s.save("S 6", into=0)
    s.load("L 6")
    s.save("S 7", into=2)
    s.load("N 13", 5)
    s.save("S 8", into=1)
    s.load("N 12", 5)
    s.file("layouts-2", block(8, values(24), layout=0), block(7, values(25), layout=0x100), block(6, values(26), layout=0x101),
           block(7, values(27)), block(6, values(28), layout=0xFFFF))
    for version in (8, 7, 6):
        s.load("N 13", version)
    s.load("N 13")
    s.read_all()
    s.save("S 9", into=2)
    s.save("S 10", into=4)
    s.save("S 11", into=1)
    s.load("L 7", 7)
    s.file("layouts-3", block(8, values(29)), block(8, values(30), layout=2))
    s.load("L 8")
    s.load("L 8", 8)
    s.read_all()


def changed_words(s):
    s.file("changed", block(4, values(31)), damaged(block(9, values(32)), 50), block(5, values(33)),
           damaged(block(8, values(34)), 255))
    s.load("L 5")
    s.read_all()
    s.load("N 12", 9)
    s.load("N 12", 8)
    s.save("S 6", into=1)
    s.save("S 7", into=3)
    s.save("S 8", into=0)
    s.file("changed-2", block(1, values(35)), damaged(block(2, values(36)), 0), damaged(block(3, values(37)), 1, 0x8000),
           damaged(block(4, values(38)), 2, 0xFFFF), damaged(block(5, values(39)), 254, 0x100),
           damaged(block(6, values(40)), 109, 0xFF00))
    s.load("L 1")
    s.read(0xFFE)
    for into in (1, 2, 3, 4, 5, 0):
        s.save(into=into)
    s.file("swapped", block(1, values(41)), swapped(block(2, values(42)), 3, 108), block(0, values(43)))
    s.load("L 2")
    s.read_all()
    s.save("S 3", into=2)


def versions(s):
    s.file("carry", block(0xFFFF, values(51)), ERASED, ZEROS)
    s.load("L 65535")
    s.save("S 65536", into=1)
    s.save("S 65537", into=2)
    s.load("L 65535", 0xFFFF)
    s.load("L 65536", 0x10000)
    s.load("N 12", 1)
    s.load("N 12", 0)
    s.save("S 65538", into=0)
    s.file("high", block(0xFFFFFFFE, values(52)), block(0x1FFFF, values(53)), block(0x7FFFFFFF, values(54)),
           block(0x80000000, values(55)))
    s.load("L 4294967294")
    s.load("L 2147483647", 0x7FFFFFFF)
    s.load("L 2147483648", 0x80000000)
    s.load("L 131071", 0x1FFFF)
    s.read_all()
    s.save("S 4294967295", into=1)
    s.save("N 12")
    s.load("L 4294967295")
    s.load("L 4294967295", LAST)
    s.read_all()
    s.file("last", ERASED, block(LAST, values(56)))
    s.save("N 12")
    s.load("L 4294967295")
    s.read(0xF00)
    s.file("last-layout", block(LAST, values(57), layout=7), ERASED)
    s.save("N 12")
    s.load("N 13")
    s.load("N 12", 1)
    s.file("last-unsound", damaged(block(LAST, values(58)), 3), block(3, values(59)))
    s.load("N 12", LAST)
    s.load("L 3")
    s.save("S 4", into=0)
    s.file("zero", block(0, values(60)), block(0, values(61)))
    s.load("L 0")
    s.read_all()
    s.load("L 0", 0)
    s.save("S 1", into=0)
    s.load("L 0", 0)
    s.read(0xF00)
    s.save("S 2", into=1)
    s.load("N 12", 0)
    s.file("zero-2", block(0, values(62)), ZEROS)
    s.save("S 1", into=1)


def unsound_and_unused(s):
    s.file("unsound", ZEROS, ERASED)
    s.load("N 12")
    s.load("N 12", 0)
    s.load("N 12", LAST)
    s.save("S 1", into=0)
    s.save("S 2", into=1)
    s.load("L 1", 1)
    unused = [(109, 0xDEAD), (180, 0x0001), (254, 0xBEEF)]
    s.file("unused", block(12, values(71), unused=unused), block(13, values(72), unused=[(i, i * 257) for i in range(109, 255)]))
    s.load("L 13")
    s.read_all()
    s.load("L 12", 12)
    s.read_all()
    s.save("S 14", into=0)
    s.save("S 15", into=1)


def lengths(s):
    sound = block(1, values(81))
    for name, store in (("one", sound), ("long", sound + ERASED * 127 + block(2, values(82))), ("short", (sound * 2)[:1023]),
                        ("odd", sound * 2 + b"\0"), ("empty", b""), ("half", sound * 2 + sound[:256]), ("byte", b"\xff")):
        s.file(name, store)
        s.both("N 12")
    s.file("two", sound, ERASED)
    s.load("L 1")
    s.save("S 2", into=1)
    # All blocks but the last are sound. The greatest version is that of block 64, the smallest that of block 126.
    versions = [2000 + 37 * i % 127 for i in range(127)]
    versions[64], versions[126] = 70000, 5
    s.file("full", *(block(v, values(v) if v in (5, 70000) else []) for v in versions), ERASED)
    s.load("L 70000")
    s.read_all()
    s.load("L 5", 5)
    s.read_all()
    s.load("L %d" % versions[125], versions[125])
    s.read_all()
    s.load("N 12", 70001)
    s.fill(83)
    s.save("S 70001", into=127)
    s.load("L 5", 5)
    s.load("L 70001", 70001)
    s.read_all()
    s.save("S 70002", into=126)
    s.load("N 12", 5)
    s.save("S 70003", into=0)


# CHANNEL_CONTROL that an initialise takes with PIN_CONTROL $CCCC, a first bit 1, and with $3333.
FITS = {0xCCCC: 0x0081, 0x3333: 0x0082}


def make_ready(s, c, pattern):
    s.parameter(c, 1, pattern)
    s.parameter(c, 0, FITS[pattern])


def pending_requests(s):
    s.functions()
    s.file("kept", ERASED, block(2, [0] * 106), block(3, values(91)))
    for c in range(16):
        s.lend("kept")
        s.functions()
        make_ready(s, c, (0xCCCC, 0x3333)[c % 2])
        s.save("S 4", into=0)
        s.initialise(c)
        s.load("N 2")
        s.load("N 2", 2)
        s.load("N 12", 5)
        s.ticks(3)
        s.load("N 2")
        s.parameter(c, 0, 0, refused=2)
        s.save("S 5", into=1)
        s.enable(1 << 2 * (c % 8))
        s.ticks(1)
        s.load("L 5", 5)
        s.read(0xF00 + 16 * c)
        s.load("L 4", 4)
        s.read(0xF00 + 16 * c)
        s.read(CISR)
        s.load("L 3", 3)
        s.read(0xF02 + 16 * c)
    s.read_all()
    # What comes before a pending request and what after it.
    s.functions()
    make_ready(s, 6, 0xCCCC)
    s.initialise(6)
    s.lend("unsound")
    s.load("N 12")
    s.lend("layouts")
    s.load("N 13")
    s.load("N 2", 4)
    s.lend("last-layout")
    s.load("N 13")
    s.lend("odd")
    s.both("N 12")
    s.lend("erased3")
    s.save("S 1", into=0)
    s.load("N 2")
    s.read_all()
    s.enable(0x3000)
    s.ticks(2)
    s.load("L 1")
    s.read_all()


def bound_groups(s):
    """A move of one step by channels 12 to 14, and one by 4 and 5; loads while each is bound."""
    for c, last in ((12, 14), (4, 5)):
        s.functions()
        for g in range(c, last + 1):
            make_ready(s, g, (0xCCCC, 0x3333)[g % 2])
        for i, value in ((2, 100), (3, 101), (4, 0x0001), (5, 0x0100 + last)):
            s.parameter(c, i, value)
        s.parameter(c + 1, 2, 20)
        s.parameter(c + 1, 3, 190)
        for g in range(c, last + 1):
            s.initialise(g)
            s.enable(0x5555)
            s.ticks(1)
        s.lend("erased3")
        s.save("S 1", into=0)
        s.enable(0)
        s.step(c)
        s.load("N 2")
        s.load("N 12", 2)
        s.ticks(1)
        s.load("N 2")
        s.enable(0xAAAA)
        s.ticks(1)
        s.read(HSRR[0])
        s.read(HSRR[1])
        s.load("N 2")
        s.load("N 2", 1)
        s.save("S 2", into=1)
        s.ticks(148)
        s.load("N 2")
        s.ticks(4)
        s.read(CISR)
        s.load("L 2")
        s.read_all()
        s.save("S 3", into=2)
        # The words are the old ones again, but the channels have to be initialised anew.
        s.load("L 1", 1)
        s.read_all()
        s.step(c, refused=6)
        for g in range(c, last + 1):
            s.initialise(g, refused=4)
            s.parameter(g, 0, FITS[s.unit.parameter(g, 1)])
            s.initialise(g)
            s.ticks(1)
        s.step(c)
        s.ticks(160)
        s.write(CISR, 0xA5A5)
        s.read(CISR)
        s.load("L 1", 1)
        s.read_all()


def unchanged_by_a_load(s):
    """CIER, CISR, HSQR and the pins stay, a load with another function makes a request a 3."""
    s.functions()
    make_ready(s, 9, 0xCCCC)
    s.write(CIER, 0x1248)
    s.write(HSQR[0], 0x0F1E)
    s.write(HSQR[1], 0xE1F0)
    s.enable(0x5555)
    s.initialise(9)
    s.ticks(1)
    other = values(95)
    other[100:104] = [0xDDDD, 0xDDCD, 0xDDDD, 0xDDDD]
    other[104:106] = [0x5555, 0x5555]
    s.file("functions", block(1, other), ERASED)
    s.load("L 1")
    for a in REGISTERS:
        s.read(a)
    make_ready(s, 9, 0x3333)
    s.initialise(9, refused=3)
    make_ready(s, 10, 0x3333)
    s.initialise(10)
    s.ticks(1)
    make_ready(s, 11, 0xCCCC)
    s.initialise(11)
    s.ticks(1)
    s.save("S 2", into=1)


def some_block(chance):
    small, high = chance.below(6), 0x10000 * chance.below(3) + chance.below(3)
    version = chance.one_of([small, small, high, LAST - 2 - chance.below(7)])
    layout = chance.one_of([1, 1, 1, 1, chance.below(65536)])
    unused = [(109 + chance.below(146), chance.below(65536))] if chance.below(3) == 0 else []
    b = block(version, [chance.below(65536) for _ in SETTINGS], layout, unused)
    kind = chance.below(8)
    if kind == 0:
        return ERASED
    return damaged(b, chance.below(256), 1 + chance.below(65535)) if kind == 1 else b


def by_chance(s):
    chance = Chance(102)
    for count in (2, 3, 5, 9):
        s.file("chance-%d" % count, *(some_block(chance) for _ in range(count)))
        for _ in range(30):
            kind = chance.below(10)
            versions = [version_of(b) for b in blocks_of(s.store)]
            if kind < 2:
                s.save()
            elif kind < 4:
                s.load()
            elif kind < 6:
                s.load(None, chance.one_of(versions + [chance.below(8)]))
            else:
                s.write(chance.one_of(SETTINGS), chance.below(65536))
            for _ in range(3):
                s.read(chance.one_of(SETTINGS))


def made():
    """Every file and its bytes."""
    s = Script()
    for part in (nothing_lent, one_after_another, equal_versions, other_layouts, changed_words, versions, unsound_and_unused,
                 lengths, pending_requests, bound_groups, unchanged_by_a_load, by_chance):
        part(s)
    files = {OUT / "data" / name: content for name, content in s.files.items()}
    files[OUT / "stdin"] = "".join(line + "\n" for line in s.calls).encode()
    files[OUT / "stdout"] = "".join(line + "\n" for line in s.out).encode()
    return files


def main():
    files = made()
    here = set((OUT / "data").glob("*"))
    others = sorted(here - set(files))
    if sys.argv[1:] == ["--check"]:
        wrong = [p for p, content in files.items() if not p.exists() or p.read_bytes() != content] + others
        for path in wrong:
            print("differs:", path)
        sys.exit(1 if wrong else 0)
    if sys.argv[1:]:
        sys.exit(__doc__)
    (OUT / "data").mkdir(parents=True, exist_ok=True)
    for path in others:
        print("of no use:", path)
    for path, content in files.items():
        path.write_bytes(content)


if __name__ == "__main__":
    main()
