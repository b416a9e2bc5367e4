"""Instructions of single calls on a board, by the emulator qemu-arm: what bench/libm, bench/entries and bench/wholes share.
A program for it reads its calls from standard input, makes them one by one in `make_calls`, and writes them back with their answers.
Needs gcc-arm-none-eabi and qemu-user."""
import subprocess
import sys
import tempfile


def tool(name, *words):
    return subprocess.run(["arm-none-eabi-" + name, *words], capture_output=True, text=True, check=True).stdout


def symbols(program):
    """Address and bytes of each symbol that has a size."""
    found = (line.split() for line in tool("nm", "-S", program).splitlines())
    return {f[3]: (int(f[0], 16) & ~1, int(f[1], 16)) for f in found if len(f) == 4}


class Blocks:
    """What the emulator says of the blocks that it executes: before the first time a list of its instructions, each time a line."""

    def __init__(self):
        self.listed, self.known = 0, {}

    def executed(self, line):
        """A block's first address and how many instructions it has; None for a line of a list."""
        if not line.startswith("Trace"):
            self.listed = 0 if line.startswith("IN:") else self.listed + line.startswith("0x")
            return None
        where = line[9:line.index("[", 9)]
        if where not in self.known:
            if not self.listed:
                sys.exit("the emulator lists no instructions")
            self.known[where] = int(line.split("/", 2)[1], 16), self.listed
        return self.known[where]


def functions(program):
    """Address and name of every function, by address; of a routine's many names one."""
    lines = (line.split() for line in tool("nm", "-C", program).splitlines())
    return sorted({int(f[0], 16) & ~1: " ".join(f[2:]) for f in lines if f[1] in "tTW" and not f[2].startswith("$")}.items())


def run(program, calls, names, by_block=None):
    """What the program writes for these bytes, and for each call of one of the named functions the instructions between its entry and the
    return to `make_calls`. Those of each block are added to `by_block`, where there is one, under the function called."""
    at = symbols(program)
    begin, size = at["make_calls"]
    entries = {at[name][0] for name in names}
    counts, inside, blocks = [], False, Blocks()
    with tempfile.TemporaryFile() as given, tempfile.TemporaryFile() as back:
        given.write(calls)
        given.seek(0)
        # The emulated processor knows the instructions of every board here.
        words = ["qemu-arm", "-cpu", "cortex-a7", "-d", "nochain,exec,in_asm", program]
        with subprocess.Popen(words, stdin=given, stdout=back, stderr=subprocess.PIPE, text=True) as emulator:
            for line in emulator.stderr:
                block = blocks.executed(line)
                if block is None:
                    continue
                pc, instructions = block
                if begin <= pc < begin + size:
                    inside = False
                    continue
                if inside:
                    counts[-1] += instructions
                elif pc in entries:
                    inside, entry = True, pc
                    counts.append(instructions)
                if inside and by_block is not None:
                    by_block[entry][pc] += instructions
        if emulator.returncode:
            sys.exit(f"{program} ended with {emulator.returncode} after {len(counts)} calls")
        back.seek(0)
        return back.read(), counts
