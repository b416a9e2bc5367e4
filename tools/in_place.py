#!/usr/bin/env python3
"""in_place.py IN.ll OUT.ll
A stage of tools/native-lib, over a module in LLVM's text, after tools/constant_arrays.py. A struct by value is handed over by its place,
and there every function copies what it is given, builds its answer in a place of its own and copies that too, for the compiler is not told
that the places lie apart. This stage sees to it that they do, says so, and leaves out the copies that nobody can then tell from their
source:
- what is given is read where it lies, if the function never writes to its copy;
- the answer is built where it is wanted;
- a value that is built in one place and then moved to another is built in the other: nothing uses the first after the move, and nothing
  uses the second before it;
- a value that is moved and then only read is read where it was, if nothing writes there after the move.
The back end fills each place of the stack with zeros before anything names it. Where two places become one, the zeros of one do for both;
where what was moved is read where it was, the zeros go, if nothing can read them.
An enum is moved in parts: its letter, and what its widest case has. Such moves are made one first.
A place is a part of a function's stack, or of what it was given or answers. One whose address is kept or lent is left alone, for others
may write to it. At each call the places of what is given and of the answer must lie apart, else a copy is made for that call. So a callee
has no way to what it was given but the one that it was given by, nor to its answer's place. Prints how many copies went and came.
tools/in_place_test tries this script."""
import collections
import re
import sys

NAME = r"%[\w.]+"
# One value, or two.
TYPE = r"(?:\w+|\{ \w+, \w+ \})"
FUNCTION = re.compile(rf'define (?:internal )?(?:[a-z]+ )*?({TYPE}) @("[^"]*"|[\w.$-]+)\((.*)\)(?: #\d+)? \{{')
LABEL = re.compile(r"([\w.]+):(?:\s.*)?")
ALLOCA = re.compile(rf"  ({NAME}) = alloca (?:\[(\d+) x i8\]|(\w+)), align (\d+)")
PLACE = re.compile(rf"  ({NAME}) = getelementptr (?:inbounds |nuw )*i8, ptr ({NAME}), i64 (-?\d+|{NAME})")
LOAD = re.compile(rf"  {NAME} = load (\w+), ptr ({NAME}), align .*")
STORE = re.compile(rf"  store (\w+) (\S+), ptr ({NAME}), align .*")
MOVE = re.compile(rf"  call void @llvm\.memmove\.p0\.p0\.i64\(ptr ({NAME}), ptr ({NAME}), i64 (\d+), i1 false\)")
COPY = re.compile(rf"  call void @llvm\.memcpy\.p0\.p0\.i64\(ptr (?:align \d+ )?({NAME}), ptr (?:align \d+ )?@\S+, i64 (\d+), i1 false\)")
FILL = re.compile(rf"  call void @llvm\.memset\.p0\.i64\(ptr ({NAME}), i8 \S+, i64 (\d+), i1 false\)")
CALL = re.compile(rf'(  (?:%[\w.]+ = )?call (?:[a-z]+ )*?{TYPE} @("[^"]*"|[\w.$-]+)\()(.*)\)(.*)')
# An enum's letter, as it is moved: read, widened by zeros, and written.
LETTER = re.compile(rf"  ({NAME}) = load i8, ptr ({NAME}), align 1")
WIDENED = re.compile(rf"  ({NAME}) = zext i8 ({NAME}) to (i\d+)")
LETTERED = re.compile(rf"  store (i\d+) ({NAME}), ptr ({NAME}), align 1")
ENDS = re.compile(r"  (br|switch|ret|unreachable)\b")
NAMED = re.compile(NAME)
TARGET = re.compile(r"label (%[\w.]+)")
BYTES = {"i1": 1, "i8": 1, "i16": 2, "i32": 4, "i64": 8, "float": 4, "double": 8, "ptr": 8}

# What a function's pointer is: a value that it is given, its answer, or anything else. With its bytes and its alignment.
Role = collections.namedtuple("Role", "kind bytes align")
# A use of a place: the line, whether it reads or writes, from which byte and how many; None where that is not known.
Use = collections.namedtuple("Use", "line does at bytes")


def overlap(a, m, b, n):
    return None in (a, m, b, n) or a < b + n and b < a + m


class Parts:
    """The move in parts that begins at a line of a function: the lines of the one move that takes its place, and how many lines it has; none
    and 1 where no such move begins there."""

    def __init__(self, function, start):
        self.function, self.start, self.one, self.count = function, start, [], 1
        # what is named: the place that a name points to, by its root and byte, or an enum's letter, by where it was read
        self.places, self.letters = {}, {}
        self.to = self.source = self.begin = self.end = None
        moves, i = 0, start
        while i < len(function.lines) and (moved := self.takes(function.lines[i])) is not None:
            i += 1
            moves += moved
            if moved and moves > 1 and self.alone(i):
                self.one, self.count = self.whole(), i - start

    def place(self, name):
        return self.places.get(name, (name, 0))

    def takes(self, line):
        """None where a line is no part of the move, else whether it moves something."""
        if (m := PLACE.fullmatch(line)) and m[3].isdigit():
            root, at = self.place(m[2])
            self.places[m[1]] = root, at + int(m[3])
            return False
        if m := LETTER.fullmatch(line):
            self.letters[m[1]] = self.place(m[2])
            return False
        if (m := WIDENED.fullmatch(line)) and m[2] in self.letters:
            self.letters[m[1]] = self.letters[m[2]]
            return False
        if (m := LETTERED.fullmatch(line)) and m[2] in self.letters:
            return self.moves(self.place(m[3]), self.letters[m[2]], BYTES[m[1]]) or None
        if m := MOVE.fullmatch(line):
            return self.moves(self.place(m[1]), self.place(m[2]), int(m[3])) or None
        return None

    def moves(self, to, source, count):
        """Whether so many bytes are the next of one move from place to place."""
        if self.to is None:
            if to[0] == source[0]:
                return False
            self.to, self.source, self.begin, self.end = to, source, 0, count
            return True
        at = to[1] - self.to[1]
        if (to[0], source[0]) != (self.to[0], self.source[0]) or source[1] - self.source[1] != at:
            return False
        if at != self.end and not (self.end < at < self.end + 8 and at % 8 == 0 and self.fresh()):
            return False
        self.end = at + count
        return True

    def fresh(self):
        """Whether nothing comes before the move that names where it goes, so that the bytes between its parts hold nothing there."""
        function, (root, at) = self.function, self.to
        is_own = root in function.stack or function.answers == "void" and root == function.given[0].split()[-1]
        return at == 0 and is_own and not any(function.reaches(i, self.start) for i in function.naming(root) if not ALLOCA.fullmatch(function.lines[i]))

    def alone(self, end):
        """Whether no line but these names what they name."""
        made = set(self.places) | set(self.letters)
        others = self.function.lines[:self.start] + self.function.lines[end:]
        return not any(made & set(NAMED.findall(line)) for line in others)

    def whole(self):
        lines, names = [], []
        for end, (root, at) in (("to", self.to), ("from", self.source)):
            names.append(root if at == 0 else f"%{end}.{self.start}")
            if at:
                lines.append(f"  {names[-1]} = getelementptr i8, ptr {root}, i64 {at}")
        return lines + [f"  call void @llvm.memmove.p0.p0.i64(ptr {names[0]}, ptr {names[1]}, i64 {self.end}, i1 false)"]


class Function:
    def __init__(self, head, lines):
        found = FUNCTION.fullmatch(head)
        self.head, self.lines, self.name, self.answers = head, lines, found[2], found[1]
        self.internal = head.startswith("define internal")
        self.given = [g.strip() for g in found[3].split(",") if g.strip()]
        self.hoist()
        self.join()
        self.roles = {}
        if self.internal:
            for i, g in enumerate(self.given):
                if g.startswith("ptr "):
                    self.roles[i] = self.role(i, g.split()[-1])

    def hoist(self):
        """All places of the stack stand at the front. The back end makes them in the first block alone."""
        stack = [line for line in self.lines if ALLOCA.fullmatch(line)]
        rest = [line for line in self.lines if not ALLOCA.fullmatch(line)]
        first = next(i for i, line in enumerate(self.lines) if ENDS.match(line))
        if any(ALLOCA.fullmatch(line) for line in self.lines[first:]):
            sys.exit(f"in_place: {self.name} makes a place outside its first block")
        self.lines = rest[:1] + stack + rest[1:]
        self.stack, self.moved = {}, {}
        for line in stack:
            a = ALLOCA.fullmatch(line)
            self.stack[a[1]] = (int(a[2]) if a[2] else BYTES[a[3]], int(a[4]))

    def join(self):
        """Each move in parts becomes one move."""
        self.flow()
        lines, i = [], 0
        while i < len(self.lines):
            parts = Parts(self, i)
            lines += parts.one or self.lines[i:i + 1]
            i += parts.count
        self.lines = lines

    def naming(self, name):
        return [i for i, line in enumerate(self.lines) if name in NAMED.findall(line)]

    def role(self, number, name):
        used = self.naming(name)
        moves = [MOVE.fullmatch(self.lines[i]) for i in used]
        if used and all(moves):
            to, source, count = moves[0].groups()
            first = next(i for i, line in enumerate(self.lines) if ENDS.match(line))
            if len(used) == 1 and source == name and used[0] < first and self.stack.get(to, (0, 0))[0] == int(count):
                return Role("value", int(count), self.stack[to][1])
            sources = {m[2] for m in moves}
            ends = all(m[1] == name and self.lines[i + 1] == "  ret void" for i, m in zip(used, moves))
            if number == 0 and self.answers == "void" and ends and len(sources) == 1 and self.stack.get(source, (0, 0))[0] == int(count):
                return Role("answer", int(count), self.stack[source][1])
        return Role("other", 0, 1)

    # ---- places

    def look(self, functions):
        """Where each name points, what uses each place, and which places others may know."""
        self.flow()
        self.at = {name: (name, 0) for name in self.stack}
        self.size = dict(self.stack)
        for i, role in self.roles.items():
            if role.kind != "other":
                name = self.given[i].split()[-1]
                self.at[name], self.size[name] = (name, 0), (role.bytes, role.align)
        self.at.update(self.moved)
        self.uses, self.taken = collections.defaultdict(list), set()
        for i, line in enumerate(self.lines):
            self.note(i, line, functions)

    def flow(self):
        """The block of each line, and the blocks that each leads to."""
        self.block, self.follows = [], collections.defaultdict(set)
        here = ""
        for line in self.lines:
            label = LABEL.fullmatch(line)
            here = label[1] if label else here
            self.block.append(here)
            if label is None:
                self.follows[here] |= {t[1:] for t in TARGET.findall(line)}
        self.close()

    def close(self):
        """The blocks that a block leads to, by one step or more, itself among them where it is in a circle."""
        blocks = set(self.block)
        self.leads = {b: set(self.follows[b]) for b in blocks}
        grown = True
        while grown:
            grown = False
            for b in blocks:
                more = set().union(*(self.leads.get(c, set()) for c in self.leads[b])) - self.leads[b]
                if more:
                    self.leads[b] |= more
                    grown = True

    def reaches(self, i, j):
        """Whether line j can be run after line i."""
        a, b = self.block[i], self.block[j]
        return a == b and i < j or b in self.leads[a]

    def touch(self, i, name, does, count):
        if name in self.at:
            root, at = self.at[name]
            self.uses[root].append(Use(i, does, at, count))

    def note(self, i, line, functions):
        if ALLOCA.fullmatch(line):
            return
        if (m := PLACE.fullmatch(line)) and m[2] in self.at:
            root, at = self.at[m[2]]
            number = re.fullmatch(r"-?\d+", m[3])
            self.at[m[1]] = (root, at + int(m[3]) if number and at is not None else None)
        elif m := LOAD.fullmatch(line):
            self.touch(i, m[2], "reads", BYTES.get(m[1]))
        elif (m := STORE.fullmatch(line)) and not (m[1] == "ptr" and m[2] in self.at):
            self.touch(i, m[3], "writes", BYTES.get(m[1]))
        elif m := MOVE.fullmatch(line):
            self.touch(i, m[2], "reads", int(m[3]))
            self.touch(i, m[1], "writes", int(m[3]))
        elif m := COPY.fullmatch(line) or FILL.fullmatch(line):
            is_first = FILL.fullmatch(line) and m[1] in self.at and self.first(i, line, self.at[m[1]][0])
            self.touch(i, m[1], "zeros" if is_first else "writes", int(m[2]))
        elif (m := CALL.fullmatch(line)) and m[2] in functions:
            for k, word in enumerate(m[3].split(",") if m[3] else []):
                name, role = word.split()[-1], functions[m[2]].roles.get(k, Role("other", 0, 1))
                if role.kind == "other":
                    self.take(name)
                else:
                    self.touch(i, name, "reads" if role.kind == "value" else "writes", role.bytes)
        else:
            for name in NAMED.findall(line):
                self.take(name)

    def first(self, i, line, root):
        """Whether a line fills a place with zeros, all of it, before anything uses it."""
        m = FILL.fullmatch(line)
        is_whole = self.at[m[1]] == (root, 0) and int(m[2]) == self.size[root][0]
        return is_whole and ", i8 0, " in line and self.block[i] == self.block[0] and not self.uses[root] and root not in self.taken

    def zeros(self, root):
        """The lines of the first zeros of a place, last first."""
        return [use.line for use in reversed(self.uses[root]) if use.does == "zeros"]

    def only_after(self, i, j):
        """Whether line j can be run only after line i."""
        a, b = self.block[i], self.block[j]
        seen, new = set(), [self.block[0]]
        while new:
            block = new.pop()
            if block != a and block not in seen:
                seen.add(block)
                new += self.follows[block]
        return i < j if a == b else b not in seen

    def take(self, name):
        if name in self.at:
            self.taken.add(self.at[name][0])

    def fits(self, root, at, align):
        return at is not None and self.size[root][1] % align == 0 and at % align == 0

    def own(self, root):
        """Whether a place is this function's alone."""
        return root in self.size and root not in self.taken

    # ---- copies that go

    def leave_out(self, *lines):
        for i in sorted(lines, reverse=True):
            del self.lines[i]

    def instead(self, name, root, at):
        """A part of another place takes the part of one of the stack's."""
        self.lines = [line for line in self.lines if not line.startswith(f"  {name} = alloca ")]
        del self.stack[name]
        self.moved = {n: (root, at + there) if r == name else (r, there) for n, (r, there) in self.moved.items()}
        self.moved[name] = (root, at)

    def read_where_given(self, name):
        i = self.naming(name)[0]
        to = MOVE.fullmatch(self.lines[i])[1]
        if not self.own(to) or sum(use.does == "writes" for use in self.uses[to]) != 1:
            return False
        if any(use.does == "reads" and not self.only_after(i, use.line) for use in self.uses[to]):
            return False
        self.leave_out(i, *self.zeros(to))
        self.instead(to, name, 0)
        return True

    def built_where_wanted(self, name):
        used = self.naming(name)
        source = MOVE.fullmatch(self.lines[used[0]])[2]
        if not self.own(source) or any(self.reaches(use.line, use.line) for use in self.uses[source]):
            return False
        for i in reversed(used):
            del self.lines[i]
        self.instead(source, name, 0)
        return True

    def one_copy(self):
        """Leaves out one copy from place to place, if it finds one that may go."""
        for i, line in enumerate(self.lines):
            m = MOVE.fullmatch(line)
            if not m or m[1] not in self.at or m[2] not in self.at:
                continue
            (to, to_at), (source, source_at), count = self.at[m[1]], self.at[m[2]], int(m[3])
            if to == source or not self.own(to) or not self.own(source):
                continue
            if self.whole(source, source_at, count) and self.built_there(i, source, to, to_at, count):
                self.leave_out(i, *(self.zeros(source) if self.zeros(to) else []))
                self.instead(source, to, to_at)
                return True
            if self.whole(to, to_at, count) and self.read_there(i, to, source, source_at, count):
                self.leave_out(i, *self.zeros(to))
                self.instead(to, source, source_at)
                return True
        return False

    def whole(self, root, at, count):
        """Whether so many bytes are all of a place of the stack."""
        return root in self.stack and at == 0 and self.stack[root][0] == count

    def built_there(self, i, source, to, at, count):
        """Every use of the source comes before the move and none can come after it; no use of where it goes comes before, but its first zeros,
        and those come before all but the first zeros of the source."""
        if self.is_given(to) or not self.fits(to, at, self.stack[source][1]):
            return False
        if any(use.does != "zeros" and self.reaches(use.line, zeros) for use in self.uses[source] for zeros in self.zeros(to)):
            return False
        if any(use.line != i and (not self.reaches(use.line, i) or self.reaches(i, use.line)) for use in self.uses[source]):
            return False
        return not any(use.line != i and use.does != "zeros" and self.reaches(use.line, i) and overlap(use.at, use.bytes, at, count)
                       for use in self.uses[to])

    def read_there(self, i, to, source, at, count):
        """The move alone writes where it goes to, but for first zeros that nothing reads, and after it nothing writes where it came from."""
        if not self.fits(source, at, self.stack[to][1]) or any(use.does == "writes" and use.line != i for use in self.uses[to]):
            return False
        if self.zeros(to) and any(use.does == "reads" and not self.only_after(i, use.line) for use in self.uses[to]):
            return False
        return not any(use.does != "reads" and self.reaches(i, use.line) and overlap(use.at, use.bytes, at, count)
                       for use in self.uses[source])

    def is_given(self, root):
        return any(role.kind == "value" and self.given[k].split()[-1] == root for k, role in self.roles.items())

    def thinned(self, functions):
        """Leaves out what copies it can; how many."""
        gone = 0
        self.look(functions)
        for k, role in self.roles.items():
            name = self.given[k].split()[-1]
            if role.kind == "value":
                gone += self.read_where_given(name)
            elif role.kind == "answer":
                gone += self.built_where_wanted(name)
            self.look(functions)
        while self.one_copy():
            gone += 1
            self.look(functions)
        return gone

    # ---- calls

    def apart(self, functions):
        """At each call what is given and the answer's place lie apart, and nobody else knows them; else copies come. How many."""
        self.look(functions)
        lines, new = [], []
        for line in self.lines:
            m = CALL.fullmatch(line)
            roles = functions[m[2]].roles if m and m[2] in functions else {}
            words, before, after = [w.strip() for w in m[3].split(",")] if roles else [], [], []
            wanted = words[0].split()[-1] if roles and roles[min(roles)].kind == "answer" else None
            for k, role in roles.items():
                name = words[k].split()[-1]
                if role.kind == "other" or (self.may_want(name, role) if role.kind == "answer" else self.may_give(name, role, wanted, roles)):
                    continue
                own = f"%own.{len(new) + 1}"
                new.append(f"  {own} = alloca [{role.bytes} x i8], align {role.align}")
                to, source, where = (own, name, before) if role.kind == "value" else (name, own, after)
                where.append(f"  call void @llvm.memmove.p0.p0.i64(ptr {to}, ptr {source}, i64 {role.bytes}, i1 false)")
                words[k] = f"ptr {own}"
            lines += before + ([f"{m[1]}{', '.join(words)}){m[4]}"] if roles else [line]) + after
        self.lines = lines[:1] + new + lines[1:]
        return len(new)

    def may_give(self, name, role, wanted, roles):
        if name not in self.at or not self.own(self.at[name][0]) or not self.fits(*self.at[name], role.align):
            return False
        (root, at), (other, there) = self.at[name], self.at.get(wanted, (None, 0))
        return root != other or not overlap(at, role.bytes, there, roles[0].bytes)

    def may_want(self, name, role):
        return name in self.at and self.own(self.at[name][0]) and not self.is_given(self.at[name][0]) and self.fits(*self.at[name], role.align)

    def text(self):
        words = list(self.given)
        for k, role in self.roles.items():
            name = self.given[k].split()[-1]
            said = {"value": "readonly", "answer": "writable"}.get(role.kind)
            if said:
                words[k] = f"ptr noundef noalias {said} captures(none) dereferenceable({role.bytes}) align {role.align} {name}"
        head = self.head.replace(f"({', '.join(self.given)})", f"({', '.join(words)})", 1)
        behind = 1 + sum(ALLOCA.fullmatch(line) is not None for line in self.lines)
        moved = [f"  {name} = getelementptr i8, ptr {root}, i64 {at}" for name, (root, at) in self.moved.items()]
        return [head] + self.lines[:behind] + moved + self.lines[behind:] + ["}"]


def main():
    if len(sys.argv) != 3:
        sys.exit(__doc__)
    with open(sys.argv[1], encoding="utf-8") as f:
        lines = f.read().splitlines()
    parts, functions, at = [], {}, 0
    while at < len(lines):
        if FUNCTION.fullmatch(lines[at]):
            end = lines.index("}", at)
            function = Function(lines[at], lines[at + 1:end])
            functions[function.name] = function
            parts.append(function)
            at = end + 1
        else:
            parts.append(lines[at])
            at += 1
    gone = sum(f.thinned(functions) for f in functions.values())
    came = sum(f.apart(functions) for f in functions.values())
    with open(sys.argv[2], "w", encoding="utf-8") as f:
        for part in parts:
            f.write("\n".join(part.text() if isinstance(part, Function) else [part]) + "\n")
    print(f"in_place: copies gone: {gone}, come: {came}")


main()
