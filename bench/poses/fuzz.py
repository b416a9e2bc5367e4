#!/usr/bin/env python3
"""fuzz.py [SEED]: poses as JSON, by operation lines `jread` and `jwrite` through the program `replay`, compared to the byte with a reading of its
own by exact fractions: good texts in every dress, every refusal and their order, damage, cuts at every byte, names in UTF-8, escapes,
numbers next to half-way points, ties, rows of every length. REPLAY in the environment is a command to run in its place. The last line
is the figure. Exit 1 on a failure."""
import os, random, re, shlex, struct, subprocess, sys
from collections import Counter
from fractions import Fraction

ROOT = os.path.dirname(os.path.dirname(os.path.dirname(os.path.abspath(__file__))))
RUN = shlex.split(os.environ.get("REPLAY", "")) or [os.path.join(ROOT, "tools", "run"), "replay"]
ROW_ORDER = ["left_front", "right_front", "left_middle", "right_middle", "left_rear", "right_rear"]
FIELD_ORDER = ["left_front", "left_middle", "left_rear", "right_front", "right_middle", "right_rear"]
LINE = 4096  # bytes of a line
LONGEST = (LINE - len("jread ")) // 2  # bytes of a text that a line holds
PART = Fraction(1, 10**8)


# ---- f32 by fractions
def value(bits):
    """Of a finite pattern, without its sign."""
    exponent, digits = bits >> 23 & 255, bits & 0x7FFFFF
    return Fraction(digits + (exponent > 0) * 2**23) * Fraction(2) ** (max(exponent, 1) - 150)


def nearest(v):
    """The pattern of the f32 nearest to a fraction of at most 10, not negative; ties to even, as Python's round takes them."""
    if v == 0:
        return 0
    e = v.numerator.bit_length() - v.denominator.bit_length()
    e = max(e if v >= Fraction(2) ** e else e - 1, -126)
    digits = round(v / Fraction(2) ** (e - 23))
    return (e + 126 << 23) + digits if digits >= 2**23 else digits


def finite(bits):
    return bits & 0x7F800000 != 0x7F800000


def permitted(bits):
    return finite(bits) and value(bits) <= 4


# ---- the other reading of a text: RFC 8259 with fewer values
class No(Exception):
    pass


class Text:
    """Characters, and how many of them are read."""

    def __init__(self, characters):
        self.c, self.i = characters, 0

    def seen(self, one_of):
        return self.i < len(self.c) and self.c[self.i] in one_of

    def take(self, one_of):
        if not self.seen(one_of):
            raise No
        self.i += 1
        return self.c[self.i - 1]

    def blanks(self):
        while self.seen(" \t\n\r"):
            self.i += 1

    def token(self, c):
        self.blanks()
        self.take(c)
        self.blanks()

    def name(self):
        """What stands between the quotes, as it is spelled."""
        self.take('"')
        start = self.i
        while not self.seen('"'):
            if self.i == len(self.c) or self.c[self.i] < " ":
                raise No
            if self.c[self.i] == "\\":
                self.i += 1
                if self.take('"\\/bfnrtu') == "u":
                    for _ in range(4):
                        self.take("0123456789abcdefABCDEF")
            else:
                self.i += 1
        self.i += 1
        return self.c[start : self.i - 1]

    def number(self):
        minus = self.seen("-")
        if minus:
            self.i += 1
        whole, decimals = self.take("0123456789"), ""
        if self.seen("."):
            self.i += 1
            decimals = self.take("0123456789")
            while len(decimals) < 8 and self.seen("0123456789"):
                decimals += self.take("0123456789")
        return minus, Fraction(int(whole + decimals), 10 ** len(decimals))

    def value(self):
        if self.seen("n"):
            for c in "null":
                self.take(c)
            return None
        numbers = []
        for c in "[,,":
            self.token(c)
            numbers.append(self.number())
        self.blanks()
        self.take("]")
        return numbers

    def member(self):
        name = self.name()
        self.token(":")
        return name, self.value()

    def whole(self):
        members = []
        self.token("{")
        if not self.seen("}"):
            members.append(self.member())
            self.blanks()
            while self.seen(","):
                self.token(",")
                members.append(self.member())
                self.blanks()
        self.take("}")
        self.blanks()
        if self.i != len(self.c):
            raise No
        return members


def members_of(data):
    try:
        return Text(data.decode("utf-8")).whole()
    except (UnicodeDecodeError, No):
        return None


def read(data):
    """A refusal's number, or the patterns of each leg by its name, None for null."""
    members = members_of(data)
    if members is None:
        return 13
    pose = [(n, None if v is None else [nearest(f) | m << 31 for m, f in v]) for n, v in members]
    if not all(permitted(b) for _, v in pose for b in v or []):
        return 2
    if sorted(n for n, _ in pose) != sorted(ROW_ORDER):
        return 14
    return dict(pose)


# ---- writing
def spelled(bits):
    n = round(value(bits & 0x7FFFFFFF) / PART)
    digits = "%09d" % n
    return "-" * (bits >> 31) + digits[0] + "." + digits[1:]


def text_of(pose):
    value = lambda v: "null" if v is None else "[" + ",".join(map(spelled, v)) + "]"
    return "{" + ",".join('"%s":%s' % (n, value(pose[n])) for n in FIELD_ORDER) + "}"


def write_refused(pose, length):
    numbers = [b for v in pose.values() for b in v or []]
    if not all(map(finite, numbers)):
        return 1
    if not all(map(permitted, numbers)):
        return 2
    return 0 if length == 512 else 5


# ---- operation lines
def legs_text(pose):
    return " ".join("-" if pose[n] is None else "%08x %08x %08x" % tuple(pose[n]) for n in ROW_ORDER)


def jread(data):
    return b"jread " + (data.hex().encode() or b"-")


def jwrite(pose, length=512, fill=0xEE, marks="000000"):
    return ("jwrite %x %x %s %s" % (length, fill, legs_text(pose), marks)).encode()


def read_answer(data):
    r = read(data)
    return b"R %d" % r if isinstance(r, int) else ("ok %s 000000" % legs_text(r)).encode()


def legs_of(fields):
    """The six legs that lead a list of fields, and the fields behind them; None where there are none."""
    pose = {}
    for n in ROW_ORDER:
        if fields[:1] == ["-"]:
            pose[n], fields = None, fields[1:]
        elif len(fields) >= 3 and all(re.fullmatch("[0-9a-f]{8}", f) for f in fields[:3]):
            pose[n], fields = [int(f, 16) for f in fields[:3]], fields[3:]
        else:
            return None
    return pose, fields


def write_answer(fields):
    if len(fields) < 3 or not all(re.fullmatch("[0-9a-f]{1,8}", f) for f in fields[:2]):
        return b"E"
    length, fill = int(fields[0], 16), int(fields[1], 16)
    legs = legs_of(fields[2:])
    if length > 0x400 or fill > 0xFF or legs is None or len(legs[1]) != 1 or not re.fullmatch("[01]{6}", legs[1][0]):
        return b"E"
    pose = legs[0]
    n = write_refused(pose, length)
    if n:
        return b"R %d %d" % (n, length)
    text = text_of(pose)
    return ("ok %d %s %d" % (len(text), text, length - len(text))).encode()


def answer(line):
    """To a line `jread` or `jwrite`, good or not."""
    if len(line) > LINE:
        return b"E"
    fields = line.decode("latin-1").split(" ")
    if fields[0] == "jread" and len(fields) == 2 and re.fullmatch("-|([0-9a-f]{2})+", fields[1]):
        return read_answer(bytes.fromhex(fields[1].replace("-", "")))
    return write_answer(fields[1:]) if fields[0] == "jwrite" else b"E"


# ---- numbers
def midpoint(bits):
    """Half-way between a pattern and the next."""
    return (value(bits) + value(bits + 1)) / 2


NEAR_ZERO = [0, 1, 2, 0x7FFFFF, 0x800000, 0x31800000 - 1, 0x31800000, 0x31ABCC76, 0x31ABCC77, 0x31ABCC78, 0x322BCC77, 0x32ABCC77]
EDGES = [0x3DFFFFFF, 0x3E000000, 0x3E000001, 0x3F7FFFFF, 0x3F800000, 0x3F800001, 0x3FFFFFFF, 0x40000000, 0x407FFFFF, 0x40800000]


def pattern(r):
    """Of a number from -4 to 4."""
    kind = r.randrange(6)
    if kind == 0:
        bits = r.choice(NEAR_ZERO + EDGES)
    elif kind == 1:
        bits = nearest(Fraction(r.randrange(1, 2048, 2), 512)) + r.choice([-1, 0, 0, 0, 1])
    elif kind == 2:
        bits = r.randrange(0x31000000, 0x3E000001)
    elif kind == 3:
        bits = r.randrange(0x40800001)
    else:
        bits = r.randrange(0x3E000000, 0x40800001)
    return min(bits, 0x40800000) | r.getrandbits(1) << 31


def decimal(r, n, minus):
    """A number of n parts, with as few decimals as may be or more."""
    whole, decimals = "%d" % (n // 10**8), ("%08d" % (n % 10**8)).rstrip("0")
    decimals += "0" * r.choice([0, 0, 8 - len(decimals), r.randrange(9 - len(decimals))])
    return "-" * minus + whole + ("." + decimals if decimals else "")


def parts(r, outside=False):
    """Of a number to 4; or past it, to 9.99999999."""
    if outside:
        return r.choice([400000024, 400000025, 400000048, 410000000, 5 * 10**8, 9 * 10**8, 999999999, r.randrange(400000024, 10**9)])
    kind = r.randrange(6)
    if kind == 0:
        n = int(midpoint(r.choice([r.randrange(0x3E000000, 0x40800000), r.randrange(0x32000000, 0x40800000)])) / PART) + r.choice([-1, 0, 1, 2])
    elif kind == 1:
        n = r.choice([0, 0, 1, 2, 3, 12500000, 10**8 - 1, 10**8, 10**8 + 1, 399999999, 4 * 10**8, 400000001, 400000022, 400000023])
    elif kind == 2:
        n = r.randrange(5) * 10**8
    elif kind == 3:
        n = r.randrange(10 ** r.randrange(1, 9))
    else:
        n = r.randrange(400000024)
    return min(n, 400000023)


def number(r, outside=False):
    return decimal(r, parts(r, outside), r.getrandbits(1))


# ---- texts
def gap(r, often):
    return "".join(r.choice(" \t\n\r") for _ in range(r.choice([1, 1, 2, 5]))) if r.random() < often else ""


def joined(r, tokens, often=0.0):
    return (gap(r, often) + "".join(t + gap(r, often) for t in tokens)).encode()


def list_tokens(r, outside=None):
    numbers = [number(r, k == outside) for k in range(3)]
    return ["[", numbers[0], ",", numbers[1], ",", numbers[2], "]"]


def value_tokens(r, outside=False):
    if outside:
        return list_tokens(r, r.randrange(3))
    return ["null"] if r.random() < 0.25 else list_tokens(r)


def tokens_of(members):
    """Of names, quoted, with the tokens of their values."""
    tokens = ["{"]
    for k, (name, value) in enumerate(members):
        tokens += [","] * (k > 0) + [name, ":"] + value
    return tokens + ["}"]


def good_members(r):
    names = ['"%s"' % n for n in r.sample(ROW_ORDER, 6)]
    return [(n, value_tokens(r)) for n in names]


def good_text(r, often=0.3):
    return joined(r, tokens_of(good_members(r)), often)


CODES = [0x20, 0x21, 0x23, 0x5B, 0x5D, 0x7F, 0x80, 0xFF, 0x7FF, 0x800, 0xFFF, 0x1000, 0xD7FF, 0xE000, 0xFEFF, 0xFFFD, 0xFFFE, 0xFFFF, 0x10000, 0x3FFFF, 0x40000,
         0xFFFFF, 0x100000, 0x10FFFF]
ESCAPES = ['\\"', "\\\\", "\\/", "\\b", "\\f", "\\n", "\\r", "\\t", "\\u0000", "\\u0041", "\\uFFFF", "\\ud800", "\\uDfFf", "\\uaBc9"]


def character(r):
    kind = r.randrange(5)
    if kind == 0:
        return r.choice(ESCAPES)
    if kind == 1:
        return chr(r.choice(CODES))
    if kind == 2:
        return chr(r.choice([r.randrange(0x80, 0x800), r.randrange(0x800, 0xD800), r.randrange(0xE000, 0x10000), r.randrange(0x10000, 0x110000)]))
    return r.choice("abc_ :,{}[]0./'left_rear")


def strange_name(r):
    """A name that no leg has, or hardly."""
    known = r.choice(ROW_ORDER)
    k = r.randrange(len(known))
    return '"%s"' % r.choice([
        "", "x", known[:k], known[k + 1 :], known.upper(), known.capitalize(), known + " ", " " + known, known + "t",
        known[:k] + "\\u%04x" % ord(known[k]) + known[k + 1 :], known[:k] + chr(ord(known[k]) ^ 1) + known[k + 1 :], known.replace("_", "-"),
        known[:k] + character(r) + known[k + 1 :], "".join(character(r) for _ in range(r.randrange(1, 40)))])


# ---- lines
def dressed(r):
    for often in (0, 0, 0.05, 0.3, 1):
        for _ in range(400):
            yield jread(good_text(r, often))
    names = ['"%s"' % n for n in ROW_ORDER]
    for mask in range(64):
        yield jread(joined(r, tokens_of([(n, list_tokens(r) if mask >> k & 1 else ["null"]) for k, n in enumerate(names)])))
    for k in range(len(tokens_of(good_members(r))) + 1):  # each gap alone, each blank
        for c in " \t\n\r":
            tokens = tokens_of([(n, ["null"] if k % 3 else ["[", "0", ",", "1", ",", "-2.5", "]"]) for n in names])
            yield jread(("".join(tokens[:k]) + c + "".join(tokens[k:])).encode())


def one_number(s, rest="0"):
    """Two lines: the number among good ones in a whole pose, and under another name."""
    names = ",".join('"%s":null' % n for n in ROW_ORDER[1:])
    yield jread(('{"left_front":[%s,%s,%s],%s}' % (s, rest, rest, names)).encode())
    yield jread(('{"x":[%s,%s,%s]}' % (rest, rest, s)).encode())


NO_NUMBERS = ["", "+1", "01", "00", "10", "-10", "1.", "-1.", ".5", "-.5", "1e0", "1E0", "1.0e0", "1.123456789", "0.000000000", "- 1", "--1", "-", "1-", "1,", "0x1", "1_0", "1.2.3",
              "1..2", "1 .5", "1. 5", "1.5 5", "1 1", "NaN", "Infinity", "-Infinity", "null", "true", "1.1234567a", "1.12345678a", "1/", "1:", "/", ":", "1./", "1.:", "\u0661", "1.\u0661",
              "\uff11", "[1]", '"1"', "1.0000000-", "4.0000002400", "1.000000000000000000000000000000"]


def numbers(r):
    for s in NO_NUMBERS:
        yield from one_number(s)
    for n in range(10):
        for minus in ("", "-"):
            for tail in ("", ".0", ".00000000", ".00000001", ".99999999", ".5"):
                yield from one_number(minus + str(n) + tail)
    for n in list(range(399999950, 400000100)) + list(range(60)):
        yield from one_number(decimal(r, n, r.getrandbits(1)))
    for e in range(99, 130):  # about each power of two and its neighbours
        for bits in (e << 23, (e << 23) - 1, (e << 23) + 1):
            around = int(min(midpoint(bits), 10) / PART)
            for n in range(max(around - 2, 0), around + 4):
                yield from one_number(decimal(r, min(n, 999999999), r.getrandbits(1)))
    for _ in range(3000):  # next to half-way points
        pair = [int(midpoint(r.randrange(0x31000000, 0x40800000)) / PART) + k for k in (0, 1)]
        yield next(one_number(decimal(r, pair[0], r.getrandbits(1)), decimal(r, pair[1], r.getrandbits(1))))
    for _ in range(4000):
        yield next(one_number(number(r), number(r)))


def refusals(r):
    """Every set of the three faults, in whole poses."""
    for _ in range(250):
        for faults in range(8):
            members = good_members(r)
            if faults & 1:
                k = r.randrange(4)
                at = r.randrange(6)
                if k == 0:
                    members.pop(at)
                elif k == 1:
                    members[at] = strange_name(r), members[at][1]
                elif k == 2:
                    members.insert(r.randrange(7), (members[at][0], r.choice([members[at][1], value_tokens(r)])))
                else:
                    members.insert(r.randrange(7), (strange_name(r), value_tokens(r)))
            if faults & 2:
                at = r.randrange(len(members))
                members[at] = members[at][0], value_tokens(r, True)
            tokens = tokens_of(members)
            if faults & 4:
                tokens = other_tokens(r, tokens)
            data = joined(r, tokens, r.choice([0, 0.1]))
            if len(data) <= LONGEST:
                yield jread(data)
    for n in range(9):
        for _ in range(20):
            pool = r.choice([ROW_ORDER, ROW_ORDER + ["x"], ["x", "y"]])
            members = [('"%s"' % r.choice(pool), value_tokens(r, r.random() < 0.05)) for _ in range(n)]
            yield jread(joined(r, tokens_of(members), 0.1))


TOKENS = ["{", "}", "[", "]", ",", ":", "null", "true", "false", '""', '"x"', '"left_front"', "0", "1.5", "-4", "9", '"', "\\", "nul", "n", "NULL", "/**/", "\v", "\f", "\0",
          "\u00a0", "\ufeff", "\u2028"]


def other_tokens(r, tokens):
    """One is taken out, doubled, put elsewhere or changed, or another is put in."""
    tokens = list(tokens)
    k, j = r.randrange(len(tokens)), r.randrange(len(tokens))
    kind = r.randrange(5)
    if kind == 0:
        del tokens[k]
    elif kind == 1:
        tokens.insert(k, tokens[k])
    elif kind == 2:
        tokens[k], tokens[j] = tokens[j], tokens[k]
    elif kind == 3:
        tokens[k] = r.choice(TOKENS)
    else:
        tokens.insert(k, r.choice(TOKENS))
    return tokens


def spoiled_tokens(r):
    for _ in range(4000):
        tokens = other_tokens(r, tokens_of(good_members(r)))
        if r.random() < 0.3:
            tokens = other_tokens(r, tokens)
        yield jread(joined(r, tokens, r.choice([0, 0, 0.2])))
    for a in TOKENS:
        for b in [""] + TOKENS:
            yield jread((a + b).encode())
            yield jread(("{" + a + b + "}").encode())
            yield jread(('{"x":' + a + b + "}").encode())
            yield jread(('{"x":[0,0,' + a + b + "]}").encode())


BYTES = b'\0\x08\t\n\x0b\r\x1f !"+,-./019:[\\]elnu{}\x7f\x80\xbf\xc3\xef\xff'


def damage(r):
    """Each byte replaced, taken out, another put before it; cut there, and from there on; two swapped."""
    names = ",".join('"%s":null' % n for n in ROW_ORDER[2:])
    texts = [
        text_of({n: [pattern(r) for _ in range(3)] for n in ROW_ORDER}).encode(),
        ('{"left_front":[0.125,-0,4],"right_front":[1,-2.00000001,3.99999999],%s}' % names).encode(),
        ('\r{ "right_front" :\t[ -1 , 0.5\n, 3 ] ,"l\u00e9ft\\n\U0001f980\\uD83e" : null }\n').encode(),
        b"{}",
    ]
    for text in texts:
        for i in range(len(text) + 1):
            for b in BYTES:
                yield jread(text[:i] + bytes([b]) + text[i:])
                if i < len(text):
                    yield jread(text[:i] + bytes([b]) + text[i + 1 :])
            yield jread(text[:i])
            yield jread(text[i:])
            yield jread(text[:i] + text[i + 1 :])
            yield jread(text[:i] + text[i + 1 : i + 2] + text[i : i + 1] + text[i + 2 :])
            yield jread(text + text[:i])
    for _ in range(20):
        text = good_text(r)
        for i in range(len(text)):
            yield jread(text[:i])
        for _ in range(200):
            damaged = bytearray(text)
            for _ in range(r.choice([1, 1, 2, 4])):
                damaged[r.randrange(len(damaged))] = r.choice([r.choice(BYTES), r.randrange(256)])
            yield jread(bytes(damaged))


def named(name, behind=b'":null}'):
    return jread(b'{"' + name + behind)


def names(r):
    for c in CODES:
        yield named(chr(c).encode())
        yield named(b"a" + chr(c).encode() + b"b")
        yield jread(chr(c).encode() + b"{}")
        yield jread(b"{}" + chr(c).encode())
    for a in range(256):
        yield named(bytes([a]))
        yield named(bytes([a]), b"")
        yield named(b"\\" + bytes([a]))
        yield named(b"\\" + bytes([a]), b"")
        yield named(b"left" + bytes([a]) + b"front")
    tails = [b"", b"\x7f", b"\x80", b"\xbf", b"\xc0"]
    for a in range(0x80, 0x100):
        for b in b'\0"\\\x7f\x80\x8f\x90\x9f\xa0\xbf\xc0\xff':
            for c in tails:
                for d in tails:
                    yield named(bytes([a, b]) + c + d)
        for tail in (b"", b"\x80", b"\x80\x80", b"\x80\x80\x80", b"\x80\x80\x80\x80"):
            yield named(bytes([a]) + tail, b"")
            yield named(bytes([a]) + tail)
            yield named(bytes([a]) + tail + bytes([a]) + tail)
    hexes = b'0189afAF/:@G`g"\\ \0\xc3'
    for k in range(4):
        for b in hexes:
            digits = bytearray(b"dA9f")
            digits[k] = b
            yield named(b"\\u" + bytes(digits))
            yield named(b"\\u" + bytes(digits[: k + 1]))
            yield named(b"\\u" + bytes(digits[: k + 1]), b"")
    for n in ROW_ORDER:  # each letter another, in an otherwise whole pose; and spelled by an escape
        for k in range(len(n)):
            for c in {chr(ord(n[k]) ^ 32), chr(ord(n[k]) + 1), "\\u%04x" % ord(n[k]), "", n[k] * 2, "\0", "\u00e9", "\u0300"}:
                others = "".join(',"%s":null' % m for m in ROW_ORDER if m != n)
                yield jread(('{"%s":null%s}' % (n[:k] + c + n[k + 1 :], others)).encode())
    for _ in range(3000):
        members = good_members(r)
        members.insert(r.randrange(7), (strange_name(r), value_tokens(r)))
        data = joined(r, tokens_of(members), 0.1)
        if r.random() < 0.5:
            data = bytearray(data)
            high = [i for i, b in enumerate(data) if b >= 128] or [0]
            data[r.choice(high)] ^= 1 << r.randrange(8)
        if len(data) <= LONGEST:
            yield jread(bytes(data))


def lengths(r):
    """Short texts, all of one byte and of two of the interesting ones; and those that fill a line."""
    yield b"jread -"
    for a in range(256):
        yield jread(bytes([a]))
    for a in BYTES:
        for b in BYTES:
            yield jread(bytes([a, b]))
    text = b'{"' + b"%s" + b'":null}'
    for n in (LONGEST - 1, LONGEST, LONGEST + 1):
        for c in (b"a", b" "):
            yield jread(text % (c * (n - len(text) + 2)))
        yield jread(b"{" + b" " * (n - 2) + b"}")
        yield jread(b" " * n)
        yield jread(b"[" * n)
        many = b",".join([b'"x":null'] * (n // 9))
        yield jread(b"{" + many + b" " * (n - 2 - len(many)) + b"}")


NO_FLOATS = [0x40800001, 0xC0800001, 0x7F7FFFFF, 0xFF7FFFFF, 0x7F800000, 0xFF800000, 0x7FC00000, 0xFFC00001, 0x7F800001, 0xFFFFFFFF, 0x40A00000]


def random_pose(r, nulls=0.2):
    return {n: None if r.random() < nulls else [pattern(r) for _ in range(3)] for n in ROW_ORDER}


def both_ways(line, pose):
    """Written, and the written text read."""
    yield line
    yield jread(text_of(pose).encode())


def writes(r):
    for _ in range(3000):
        pose = random_pose(r, r.choice([0, 0.2, 0.9]))
        yield from both_ways(jwrite(pose, fill=r.randrange(256), marks="{:06b}".format(r.getrandbits(6))), pose)
    ties = [nearest(Fraction(k, 512)) + d for k in range(1, 2048, 2) for d in (0, -1, 1)]
    tiny = [b + d for b in NEAR_ZERO + EDGES for d in range(-3, 4) if 0 <= b + d <= 0x40800000]
    powers = [(e << 23) + d for e in range(1, 130) for d in (-1, 0, 1) if (e << 23) + d <= 0x40800000]
    low = [nearest(Fraction(2 * k + 1, 2 * 10**8)) for k in range(40)]
    every = [b | s << 31 for b in ties + tiny + powers + [b + d for b in low for d in (-1, 0, 1)] for s in (0, 1)]
    for k in range(0, len(every), 18):
        row = (every[k : k + 18] * 18)[:18]
        pose = {n: row[3 * i : 3 * i + 3] for i, n in enumerate(ROW_ORDER)}
        yield from both_ways(jwrite(pose), pose)
    for mask in range(64):
        for marks in ("000000", "111111", "{:06b}".format(mask)):
            yield jwrite({n: [pattern(r) for _ in range(3)] if mask >> k & 1 else None for k, n in enumerate(ROW_ORDER)}, marks=marks)
    longest = {n: [0xC0800000] * 3 for n in ROW_ORDER}
    for length in list(range(300, 320)) + [0, 1, 2, 255, 256, 509, 510, 511, 512, 513, 514, 768, 1023, 1024]:
        for pose in (longest, dict.fromkeys(ROW_ORDER), random_pose(r)):
            yield jwrite(pose, length, r.randrange(256))
    for bad in NO_FLOATS:  # at each place alone, with rows of every kind
        for k in range(18):
            pose = random_pose(r)
            n = ROW_ORDER[k // 3]
            pose[n] = [pattern(r) for _ in range(3)]
            pose[n][k % 3] = bad
            for length in (512, 511, 513, 0):
                yield jwrite(pose, length, r.randrange(256))
    for _ in range(2000):  # several faults
        pose = random_pose(r)
        for v in pose.values():
            if v is not None and r.random() < 0.3:
                v[r.randrange(3)] = r.choice(NO_FLOATS)
        yield jwrite(pose, r.choice([512, 512, 511, 513, 0, 1024]), r.randrange(256), "{:06b}".format(r.getrandbits(6)))


def no_lines(r):
    """Lines that do not parse, and some that hardly do."""
    good = [jread(b"{}"), jwrite(random_pose(r, 0)), jwrite(dict.fromkeys(ROW_ORDER))]
    yield from [b"jread", b"jread ", b"jread  7b7d", b"jread 7b7d ", b"jread 7", b"jread 7b7", b"jread 7B7D", b"jread 7b 7d", b"jread --", b"jread -7b", b"jread 0x7b", b"jreads 7b7d", b"Jread 7b7d",
                b"jread 7b7g", b"jread +b7d", b"jwrite", b"jwrite ", b"jwrite 200", b"jwrite 200 ee", b"jwrite 200 ee - - - - - 000000", b"jwrite 200 ee - - - - - - - 000000"]
    for head in ("401 0", "400 0", "0400 0", "00000200 00000001", "000000200 1", "200 100", "200 0ff", "200 ff", "200 000000ff", "ffffffff 0", "-1 0", "200 -", " 200 0", "200  0", "20A 0", "2_0 0"):
        yield ("jwrite %s - - - - - - 000000" % head).encode()
    for tail in ("", " ", " 00000", " 0000000", " 000002", " 000000 ", " 000000 0", "  000000", " -"):
        yield ("jwrite 200 0 - - - - - -" + tail).encode()
    for leg in ("3e000000", "3e000000 3e000000", "3e000000 3e000000 3e000000 3e000000", "3E000000 3e000000 3e000000", "3e00000 3e000000 3e000000", "- -", "--", "null", "3e000000 - 3e000000"):
        for k in range(6):
            yield ("jwrite 200 0 %s 000000" % " ".join(["-"] * k + [leg] + ["-"] * (5 - k))).encode()
    for line in good:
        for i in range(len(line)):
            yield line[:i]
            for b in b" -0gF\t\0\xff":
                yield line[:i] + bytes([b]) + line[i + 1 :]


PARTS = [dressed, numbers, refusals, spoiled_tokens, damage, names, lengths, writes, no_lines]


def judged(name, lines):
    """How many answers are wrong. The first wrong ones are kept."""
    given = subprocess.run(RUN, input=b"".join(l + b"\n" for l in lines), stdout=subprocess.PIPE).stdout.split(b"\n")[:-1]
    wrong = 0
    kinds = Counter()
    for k, line in enumerate(lines):
        want, got = answer(line), given[k] if k < len(given) else None
        kinds[want.split(b" ")[0] if want[:1] != b"R" else b" ".join(want.split(b" ")[:2])] += 1
        if want != got:
            wrong += 1
            if wrong <= 3:
                print("failure: %s\n  wanted %s\n  got    %s" % (line, want, got))
    wrong += max(0, len(given) - len(lines))
    print("%-15s %6d lines, %d failed; %s" % (name, len(lines), wrong, ", ".join("%s %d" % (k.decode(), n) for k, n in sorted(kinds.items()))), flush=True)
    return wrong


def main():
    seed = int(sys.argv[1]) if len(sys.argv) > 1 else 7
    count = failures = 0
    for part in PARTS:
        lines = [l for l in part(random.Random("%d %s" % (seed, part.__name__))) if l and b"\n" not in l]
        count += len(lines)
        failures += judged(part.__name__, lines)
    print("seed %d: %d lines, %d failed" % (seed, count, failures))
    return 1 if failures else 0


if __name__ == "__main__":
    sys.exit(main())
