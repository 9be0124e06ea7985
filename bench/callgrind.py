"""Instructions as callgrind counts them, from the first of the called function to its return, with all that it calls."""
import collections
import re
import subprocess
import sys

TIMES = 200
MOST_TICKS = 10**9


def collected(out, *words):
    """The lines that callgrind writes, each with the function that it belongs to, and whether it is the cost of a call that is made there."""
    command = ["valgrind", "--tool=callgrind", "--compress-strings=no", "--compress-pos=no", f"--callgrind-out-file={out}", *words]
    done = subprocess.run(command, stdout=subprocess.PIPE, stderr=subprocess.STDOUT, text=True)
    if done.returncode != 0:
        sys.exit(f"{done.stdout}bench: valgrind failed")
    function, call = None, False
    with open(out) as lines:
        for line in lines:
            if line.startswith("fn="):
                function = line[3:].strip()
            yield function, call, line.strip()
            call = line.startswith("calls=")


def costs(host, out, *words):
    """Instructions and calls from each caller to each callee, with all that the callee calls."""
    found = collections.defaultdict(lambda: (0, 0))
    callee = calls = None
    for caller, call, line in collected(out, host, *words):
        if line.startswith("cfn="):
            callee = line[4:]
        elif line.startswith("calls="):
            calls = int(line[6:].split()[0])
        elif call:
            cost, count = found[caller, callee]
            found[caller, callee] = (cost + int(line.split()[1]), count + calls)
    return found


def per_event(once, twice, caller, prefix, times, made):
    """What one more event costs, which `made` calls make: from the difference of two runs, of which one has twice as many events."""
    callees = [key for key in twice if key[0] == caller and key[1].startswith(prefix)]
    if len(callees) != 1:
        sys.exit(f"bench: {caller} calls {callees}")
    cost, calls = (b - a for a, b in zip(once[callees[0]], twice[callees[0]]))
    if calls != times * made or cost % times != 0:
        sys.exit(f"bench: {callees[0]}: {cost} instructions in {calls} calls")
    return cost // times


class Counter:
    """The instructions of each event of a host."""

    def __init__(self, host, work):
        self.host, self.work = host, work

    def command(self):
        return [self.host]

    def figures(self, callers, prefixes):
        once, twice = (costs(self.host, f"{self.work}/figures", "measure", str(n * TIMES)) for n in (1, 2))
        return {caller: [per_event(once, twice, caller, prefix, TIMES, 1) for prefix in prefixes] for caller in callers}

    def spans(self, callers, prefixes):
        """The instructions of each span of ticks; callers has the number of calls that make it."""
        once, twice = (costs(self.host, f"{self.work}/spans", "spans", str(n), str(MOST_TICKS)) for n in (1, 2))
        return {caller: [per_event(once, twice, caller, prefix, 1, made) for prefix in prefixes] for caller, made in callers.items()}

    def parts(self, caller, moves):
        """The library's instructions of one event, by function, and how many of all are moves."""
        by_function, moved = collections.Counter(), 0
        words = ["--dump-instr=yes", f"--toggle-collect={caller}", self.host, "single", caller, str(TIMES)]
        for function, call, line in collected(f"{self.work}/parts", *words):
            own = re.fullmatch(r"(0x[0-9a-f]+) \S+ (\d+)", line)
            if own and not call and function != caller:
                by_function[function] += int(own[2])
                moved += int(own[2]) if int(own[1], 16) in moves else 0
        return [(function, cost // TIMES) for function, cost in by_function.most_common()], moved // TIMES
