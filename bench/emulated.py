"""On another processor than x86-64 the kit's emulator runs the host and tells each instruction that it runs. They are the same instructions, and so the same figures."""
import collections
import os
import platform
import re
import subprocess
import sys

COMPILER = "x86_64-linux-gnu-gcc"
TIMES = 3
MOST_TICKS = 10000    # each instruction is a line that is read here


def said(*words):
    return subprocess.run(words, stdout=subprocess.PIPE, text=True, check=True).stdout


def command(program, *words):
    """What runs an x86-64 program; the words are for the emulator. The C library is the compiler's."""
    tools = f"{os.path.dirname(os.path.dirname(said('rt', 'doc').strip()))}/on/{platform.machine()}/toolchain"
    libraries = os.path.dirname(os.path.realpath(said(COMPILER, "-print-file-name=libc.so.6").strip()))
    return [f"{tools}/bin/qemu-x86_64", "-cpu", "max", *words, f"{libraries}/ld-linux-x86-64.so.2", "--library-path", libraries, program]


def telling(program, pipe):
    """What runs an x86-64 program and tells each instruction, a line that begins with Trace, through a pipe."""
    return command(program, "-one-insn-per-tb", "-d", "exec,nochain", "-D", pipe)


class Counter:
    """The instructions of each event of a host."""

    def __init__(self, host, work):
        self.host, self.work, self.library = host, work, {}
        found = re.findall(r"^([0-9a-f]+) ([0-9a-f]+) [tT] (.*)$", said("nm", "-S", host), re.M)
        self.functions = [(range(int(at, 16), int(at, 16) + int(size, 16)), name) for at, size, name in found]

    def command(self):
        return command(self.host)

    def addresses(self, words):
        """The address of each instruction in the order in which they are run."""
        pipe = f"{self.work}/{words[0]}"
        os.mkfifo(pipe)
        run = subprocess.Popen([*telling(self.host, pipe), *words])
        with open(pipe) as lines:
            for line in lines:
                instruction = re.match(r"Trace .*\[[0-9a-f]+/([0-9a-f]+)/", line)
                if instruction:
                    yield int(instruction[1], 16)
        if run.wait() != 0:
            sys.exit("bench: the emulated host failed")

    def calls(self, callers, prefixes, words):
        """(caller, prefix, how often each address was run) for each call from one of the callers to a function whose name begins with a prefix."""
        bodies = {name: body for body, name in self.functions if name in callers}
        begins = {body[0]: name for name, body in bodies.items()}
        entered = {body[0]: prefix for body, name in self.functions for prefix in prefixes if name.startswith(prefix)}
        caller = prefix = ran = None
        for address in self.addresses(words):
            caller = begins.get(address, caller)
            if caller and address in bodies[caller]:
                if ran:
                    yield caller, prefix, ran
                ran = None
            elif ran is not None:
                ran[address] += 1
            elif caller and address in entered:
                prefix, ran = entered[address], collections.Counter([address])
            else:
                caller = None

    def figures(self, callers, prefixes, words=("measure", str(TIMES))):
        """What a call costs that is not the first: the later ones must cost the same."""
        found = collections.defaultdict(list)
        for caller, prefix, ran in self.calls(callers, prefixes, words):
            found[caller, prefix].append(sum(ran.values()))
            if prefix == prefixes[0]:
                self.library[caller] = ran
        for call, costs in found.items():
            if len(costs) != TIMES or costs[1] != costs[2]:
                sys.exit(f"bench: {call}: {costs} instructions")
        return {caller: [found[caller, prefix][-1] for prefix in prefixes] for caller in callers}

    def spans(self, callers, prefixes):
        """The instructions of each span of ticks; the callers are those of one call and at most MOST_TICKS ticks."""
        return self.figures(callers, prefixes, ("spans", str(TIMES), str(MOST_TICKS)))

    def parts(self, caller, moves):
        """The library's instructions of one event, by function, and how many of all are moves."""
        by_function = collections.Counter()
        for address, times in self.library[caller].items():
            by_function[next((name for body, name in self.functions if address in body), "the C library")] += times
        return by_function.most_common(), sum(times for address, times in self.library[caller].items() if address in moves)
