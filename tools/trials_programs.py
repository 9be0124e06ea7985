"""The crates' sources in a scratch copy, and the case programs that tools/trials.py has `rt try` compile from them without proof and run."""
import os
import re
import shutil
import subprocess
import sys

from needed import read_lists

ROOT = os.path.dirname(os.path.dirname(os.path.abspath(__file__)))


class Sources:
    """A copy of each crate's src/, and what a crate reaches."""

    def __init__(self, work):
        self.work, self.crates = work, os.path.join(work, "crates")
        self.deps = read_lists(os.path.join(ROOT, "crates.txt"))
        self.own = list(self.deps)
        shutil.copy(os.path.join(ROOT, "crates.txt"), work)
        for name in self.own:
            shutil.copytree(os.path.join(ROOT, "crates", name, "src"), os.path.join(self.crates, name, "src"))

    def reached(self, name):
        found, todo = [], [name]
        while todo:
            for dep in self.deps.get(todo.pop(), []):
                if dep not in found:
                    found.append(dep)
                    todo.append(dep)
        return found


# A run is (program, what runs, input, expected output).


def named_runs():
    def text(*path):
        path = os.path.join(ROOT, *path)
        return open(path, "rb").read() if os.path.exists(path) else b""

    names = ["cases_timer", "cases_board", "cases_collector", "cases_volts", "cases_archive", "session"]
    runs = [(n, n, text("crates", n, "stdin"), text("crates", n, "stdout")) for n in names]
    return runs + [("session", "session/" + n, text("tests", "session", n + ".in"), text("tests", "session", n + ".out")) for n in ("refusals", "bad")]


def longer_runs():
    def said(script, *words, given=b""):
        script = os.path.join(ROOT, "tests", *script.split("/"))
        return subprocess.run([sys.executable, script, *words], input=given, stdout=subprocess.PIPE, check=True).stdout

    worlds = os.path.join(ROOT, "tests", "archive", "worlds.txt")
    runs = [("cases_archive", "worlds", open(worlds, "rb").read(), said("archive/expected.py", worlds))]
    for model, lines in ("timer", 4000), ("collector", 4000), ("board", 2000):
        for seed in "123":
            given = said("models/%s_random.py" % model, seed, str(lines))
            runs.append(("cases_" + model, "random " + model, given, said("models/%s.py" % model, given=given)))
    return runs


class Programs:
    """Case programs, and what each must write to what input; what is compiled runs with checks, for so many seconds at most."""

    def __init__(self, sources, runs, seconds):
        self.sources, self.seconds, self.runs = sources, seconds, {}
        for program, run, given, expected in runs:
            self.runs.setdefault(program, []).append((run, given, expected))

    def tried(self, program, runs):
        """What `rt try` says of each run, by its number; None, with what it says, where the program is not compiled."""
        folder = os.path.join(self.sources.work, "cases")
        shutil.rmtree(folder, ignore_errors=True)
        os.makedirs(folder)
        for number, (_, given, expected) in enumerate(runs):
            for name, text in ("c%d" % number, given), ("c%d.stdout" % number, expected):
                with open(os.path.join(folder, name), "wb") as file:
                    file.write(text)
        words = ["rt", "try", "--cases", folder, "--seconds", str(self.seconds)]
        done = subprocess.run(words, cwd=os.path.join(self.sources.crates, program), stdin=subprocess.DEVNULL, stdout=subprocess.PIPE, stderr=subprocess.STDOUT)
        said = done.stdout.decode(errors="replace")
        found = {int(number): what for number, what in re.findall(r"^case=c(\d+) (.*)$", said, re.M)}
        return (found if len(found) == len(runs) else None), said

    def first_notice(self, files):
        """(what runs, its line) of the first run that notices a change of these files of crates; None if none does."""
        changed = {file.split("/")[0] for file in files}
        for program, runs in self.runs.items():
            if not changed & {program, *self.sources.reached(program)}:
                continue
            found, said = self.tried(program, runs)
            if found is None:
                return "NOT COMPILED", (re.findall(r"^.*\berror\b.*$", said, re.M) or said.strip().split("\n")[-1:])[0][:160].replace("|", "/")
            for number, (run, _, expected) in enumerate(runs):
                if "output=differs" in found[number]:
                    return run, differing(said, number, expected)
                if "run=ended status=0" not in found[number]:
                    return run, found[number]
        return None


def differing(said, number, expected):
    """The label of the first line that is not the expected one."""
    at = re.search(r"differs from `c%d\.stdout`: at byte (\d+)" % number, said)
    if not at or int(at[1]) > len(expected):
        return "its end"
    start = expected.rfind(b"\n", 0, int(at[1]) - 1) + 1
    return expected[start:].split(b"\n")[0].decode(errors="replace").split(":")[0].strip()
