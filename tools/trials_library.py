"""The libraries that hosts link, built by tools/trials.py from the scratch copy without proof, and the tests of tests/host that run against them."""
import os
import re
import signal
import subprocess

from trials_programs import CASES, OWN, ROOT

LIBRARIES = "cowriestep", "cowriestep_turn", "cowriestep_tally"


def compiled(sources, tools, archive, crate="cowriestep"):
    """Compiles a library as `rt staticlib` does, but with no proof and by these tools; None, or what is wrong with it."""
    if os.path.exists(archive):
        os.remove(archive)
    words = [CASES, "--toolchain", tools, "--staticlib", archive, *sources.words(crate, "lib")]
    done = subprocess.run(words, stdout=subprocess.PIPE, stderr=subprocess.STDOUT)
    return None if os.path.exists(archive) else done.stdout.decode(errors="replace").strip().split("\n")[0]


class Library:
    """One script of tests/host, run against the libraries of the changed sources."""

    def __init__(self, sources, what, above, script, told):
        """`above` are crates that reach all whose changes the script can notice; the script is told this file of the libraries' folder."""
        self.sources, self.what, self.script = sources, what, os.path.join(ROOT, *script.split("/"))
        self.crates = {crate for name in above for crate in (name, *sources.reached(name))}
        self.folder = os.path.join(sources.work, "library")
        self.told = os.path.join(self.folder, told)
        self.touched = set(sources.deps)  # the crates in which the libraries may be of other sources
        os.makedirs(self.folder)

    def reaches(self, file):
        return file.split("/")[0] in self.crates

    def build(self, files):
        """Compiles the libraries that reach these files of crates, and those that had the change before; None, or what is wrong with one."""
        changed = {file.split("/")[0] for file in files}
        self.touched |= changed
        for name in LIBRARIES:
            if self.touched & {name, *self.sources.reached(name)}:
                wrong = compiled(self.sources, os.path.join(OWN, "toolchain"), os.path.join(self.folder, "lib%s.a" % name), name)
                if wrong:
                    return wrong
        self.touched = changed
        return None

    def first_notice(self, files):
        """(the script, what it says) where it fails with a change of these files of crates; None if it does not."""
        if not any(self.reaches(file) for file in files):
            return None
        wrong = self.build(files)
        if wrong:
            return "NOT COMPILED", wrong
        with subprocess.Popen([self.script, self.told], stdout=subprocess.PIPE, stderr=subprocess.STDOUT, start_new_session=True) as run:
            try:
                said = run.communicate(timeout=300)[0].decode(errors="replace")
            except subprocess.TimeoutExpired:
                os.killpg(run.pid, signal.SIGKILL)
                run.communicate()
                return self.what, "no end"
        return (self.what, telling(said)) if run.returncode else None


def telling(said):
    """The first line that tells of a difference, else the last one."""
    lines = [line.strip() for line in said.splitlines() if line.strip()] or ["it says nothing"]
    different = [line for line in lines if re.search(r" is -?\d+, not |differ|DIFFERENT|not reached|panicked", line) and not re.search(r"\b0 differ", line)]
    return (different or lines[-1:])[0][:160].replace("|", "/")
