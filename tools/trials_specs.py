"""The repository in a scratch copy with its proved libraries, where tools/trials.py changes definitions and has `rt check` say what is left unproved."""
import os
import re
import shutil
import subprocess

from prover_log import errors
from tried_edits import linked
from trials_programs import ROOT


class Proofs:
    """What is proved of a change: in its own crate, and where all of that is, in the crates above that name the definitions file."""

    def __init__(self, sources, trials):
        self.sources, self.root = sources, sources.work
        self.namers = {file: self.find_namers(file) for trial in trials for file, *_ in trial.edits}
        crates = {name for file, names in self.namers.items() for name in [file.split("/")[0], *names]}
        self.needed = sorted(crates | {dep for name in crates for dep in sources.reached(name) if dep in sources.own})
        self.copy_proved()
        for name in sorted(crates, key=lambda one: (len(sources.reached(one)), one)):
            if self.check(name).returncode:
                raise SystemExit("%s is not proved without a change" % name)

    def copy_proved(self):
        """Copies the crates with the libraries that the repository's own checks made of them."""
        for name in self.needed:
            for part in "specs", "proofs", "out/rlib", "out/incremental":
                if os.path.isdir(os.path.join(ROOT, "crates", name, part)):
                    copy = linked if part.startswith("out") else shutil.copy2
                    shutil.copytree(os.path.join(ROOT, "crates", name, part), os.path.join(self.root, "crates", name, part), copy_function=copy)

    def find_namers(self, file):
        """The libraries that import the definitions file, besides its own."""
        crate, _, module = file.rpartition(".")[0].partition("/")
        named = "Rattle.%s.%s" % (crate, module.replace("/", "."))
        found = []
        for name in self.sources.own:
            if crate in self.sources.deps[name] and os.path.exists(os.path.join(ROOT, "crates", name, "src", "lib.rt")):
                folders = [os.path.join(ROOT, "crates", name, part) for part in ("src", "specs", "proofs")]
                files = [os.path.join(at, f) for folder in folders for at, _, fs in os.walk(folder) for f in fs if f.endswith((".rt", ".antt"))]
                if any(re.search(re.escape(named) + r"\b", open(f, encoding="utf-8").read()) for f in files):
                    found.append(name)
        return found

    def check(self, name):
        how = {"stdout": subprocess.PIPE, "stderr": subprocess.STDOUT, "text": True, "errors": "replace"}
        return subprocess.run(["rt", "check"], cwd=os.path.join(self.root, "crates", name), **how)

    def first_notice(self, files):
        """(the theorem or function that is left unproved, of what file); None if all is still proved."""
        crates = sorted({file.split("/")[0] for file in files})
        above = sorted({name for file in files for name in self.namers[file]} - set(crates), key=lambda one: (len(self.sources.reached(one)), one))
        return next((left for left in map(self.left_by, crates + above) if left), None)

    def left_by(self, name):
        done = self.check(name)
        if done.returncode == 0:
            return None
        if "logic=not-proved" not in done.stdout:
            return "BAD CHANGE", done.stdout.strip().split("\n")[-1]
        return unproved(done.stdout, name)


def unproved(said, name):
    """The theorem of the first error, and its file; else the first function that is not proved."""
    for file, _, words in errors(said):
        what = re.match(r"`([^`]*)`: (.*)", words)
        if what:
            return "`%s` of %s/%s" % (what[1], name, file.rpartition(".")[0]), what[2][:160].replace("|", "/")
    function = re.search(r"^fn (\S+): (?:not proved|no proof)", said, re.M)
    return ("`%s`" % function[1] if function else "NOT PROVED"), said.strip().split("\n")[0][:160].replace("|", "/")
