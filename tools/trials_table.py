"""The tables and sums of docs/TRIALS.md, from the lines that tools/trials.py prints."""
from trials_programs import named_runs

NOT_MADE = "BAD CHANGE", "NOT COMPILED"


def read_results(lines):
    """(heading, sentence, what noticed it) of each line that tells of a change."""
    results = []
    for line in lines:
        parts = line.rstrip("\n").split(" | ")
        if len(parts) == 3 and not line.startswith("|"):
            what = "nothing" if parts[2] == "UNNOTICED" else parts[2].split(": ")[0]
            results.append((parts[0].replace(".antt", ""), parts[1], what))
    return results


def counted(names):
    """Each name once with how often it stands there, the most frequent first and `nothing` last."""
    order = sorted(set(names), key=lambda name: (name == "nothing", -names.count(name), name))
    return ", ".join("%s %d" % (name, names.count(name)) for name in order)


def kind(what):
    if what in {run for _, run, _, _ in named_runs()}:
        return "the named cases"
    if what == "worlds" or what.startswith("random "):
        return "the worlds and random lines"
    return "a theorem or a function's proof" if what.startswith("`") else what


def print_table(results):
    print("| Definitions file | tried | noticed by |\n|---|---|---|")
    for heading in dict.fromkeys(heading for heading, _, _ in results):
        noticed = [what for other, _, what in results if other == heading]
        print("| %s | %d | %s |" % (heading, len(noticed), counted(noticed)))
    print("\n%d changes: %s" % (len(results), counted([kind(what) for _, _, what in results])))
    for title, name in ("What only tests/host notices:", "tests/host"), ("What nothing notices:", "nothing"):
        told = ["%s: %s" % (heading, sentence) for heading, sentence, what in results if what == name]
        if told:
            print("\n" + title, *told, sep="\n- ")
