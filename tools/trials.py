#!/usr/bin/env python3
"""Would a wrong reading be noticed? Makes each change of trials.txt in a scratch copy and says what notices it first.

    python3 tools/trials.py [--cases | --specs] [WORD...]
    python3 tools/trials.py table FILE...

Without an option: the named cases, run by `rt try`, without proof; where they notice nothing, the worlds of tests/archive and the random lines of
tests/models. With --cases the named cases alone. With --specs the changes of trials_specs.txt: `rt check` says which theorem or function they leave
unproved. With words, all the changes whose heading or sentence has one of them, and no others. What only tests/host noticed (docs/TRIALS.md) was tried with an
older kit: today's makes a library of proved code alone.

Each change is one line, and at the end come the tables and sums of docs/TRIALS.md; `table` makes these of lines that were kept in files.

A function is proved equal to its definition, so a definition that is changed together with its code is a changed program: what no program notices
and no theorem refuses is a statement that rests on reading alone. It is not part of the gate.
"""
import os
import re
import sys
import tempfile

from trials_programs import Programs, Sources, longer_runs, named_runs
from trials_specs import Proofs
from trials_table import NOT_MADE, print_table, read_results

OPTIONS = "--cases", "--specs"


class Trial:
    """One change: the definitions file it is about, its sentence, and (file, function, old, new) for each edit."""

    def __init__(self, heading, sentence):
        self.heading, self.sentence, self.edits = heading, sentence, []

    def files(self):
        return {file for file, *_ in self.edits}


def read_trials(path):
    trials, heading, place = [], "", None
    for line in open(path, encoding="utf-8"):
        line = line.rstrip("\n")
        if line.startswith("# "):
            heading = line[2:]
        elif line.startswith("  in "):
            place = (line[5:].split(" fn ") + [""])[:2]
        elif line.startswith("  - "):
            trials[-1].edits.append([*place, line[4:]])
        elif line.startswith("  +"):
            trials[-1].edits[-1].append(line[4:])
        elif line.startswith("    "):  # goes on with the text above
            trials[-1].edits[-1][-1] += "\n" + line
        elif line:
            trials.append(Trial(heading, line))
    return trials


def edited(text, function, old, new):
    """The text with `old`, which stands once in the function (or in the file, if none is named), replaced."""
    start, end = 0, len(text)
    if function:
        start = re.search(r"\bfn %s\(" % function, text).start()
        end = text.index("\n}", start)
    part = text[start:end]
    if part.count(old) != 1:
        raise ValueError("%r stands %d times in %s" % (old, part.count(old), function or "the file"))
    return text[:start] + part.replace(old, new) + text[end:]


def first_notice(noticers, files):
    return next((notice for notice in (noticer.first_notice(files) for noticer in noticers) if notice), None)


def try_one(sources, noticers, trial):
    before = {}
    try:
        for file, function, old, new in trial.edits:
            path = os.path.join(sources.crates, file)
            text = open(path, encoding="utf-8").read()
            before.setdefault(path, text)
            with open(path, "w", encoding="utf-8") as out:
                out.write(edited(text, function, old, new))
        return first_notice(noticers, trial.files())
    except (ValueError, AttributeError, OSError) as wrong:
        return "BAD CHANGE", str(wrong)
    finally:
        for path, text in before.items():
            with open(path, "w", encoding="utf-8") as out:
                out.write(text)


def noticers_of(option, sources, trials):
    """What looks at a change, in this order."""
    if option == "--specs":
        return [Proofs(sources, trials)]
    named = Programs(sources, named_runs(), 60)
    if option == "--cases":
        return [named]
    return [named, Programs(sources, longer_runs(), 600)]


def main():
    words = sys.argv[1:]
    if words[:1] == ["table"]:
        return print_table(read_results(line for file in words[1:] for line in open(file, encoding="utf-8")))
    option = words.pop(0) if words and words[0] in OPTIONS else ""
    file = "trials_specs.txt" if option == "--specs" else "trials.txt"
    trials = [t for t in read_trials(os.path.join(os.path.dirname(os.path.abspath(__file__)), file))
              if not words or any(w in t.heading or w in t.sentence for w in words)]
    lines = []
    with tempfile.TemporaryDirectory() as work:
        sources = Sources(work)
        noticers = noticers_of(option, sources, trials)
        if option != "--specs" and first_notice(noticers, sources.deps):
            sys.exit("something differs without a change")
        for trial in trials:
            notice = try_one(sources, noticers, trial)
            lines.append("%s | %s | %s" % (trial.heading, trial.sentence, "%s: %s" % notice if notice else "UNNOTICED"))
            print(lines[-1], flush=True)
    print()
    results = read_results(lines)
    print_table(results)
    return any(what in NOT_MADE for _, _, what in results)


if __name__ == "__main__":
    sys.exit(main())
