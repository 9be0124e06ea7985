#!/usr/bin/env python3
"""Fails where a function of an archive or object file for x86-64, or one that it calls, has a divide instruction: divsd, divss, divpd, vdivsd, idiv and
the like. It fails too where it cannot tell: at a function that the file does not have, and at a jump or call to an address worked out at run time.

divisions.py FILE FUNCTION...
"""
import os
import re
import shutil
import subprocess
import sys

DIVIDE = re.compile(r"\b(?:v|f|fi|i)?div\w*")
GOES = re.compile(r"^(?:\w+ )*(call|j)\w*\s")


def listing(file):
    """What objdump prints of the code, with the names that are filled in when it is linked."""
    tool = shutil.which("x86_64-linux-gnu-objdump") or "objdump"
    done = subprocess.run([tool, "-d", "-r", "--no-show-raw-insn", file], stdout=subprocess.PIPE)
    return done.stdout.decode() if done.returncode == 0 else sys.exit(1)


def functions_of(text):
    """The functions of a listing: of each the divide instructions, and what it calls or jumps to."""
    functions, starts, section, name, goes = {}, {}, None, None, False
    for line in text.split("\n"):
        if m := re.match(r"Disassembly of section (.+):$", line):
            section = m[1]
        elif m := re.match(r"([0-9a-f]+) <(.+)>:$", line):
            name, goes = m[2], False
            functions.setdefault(name, ([], set()))
            starts[section, int(m[1], 16)] = name
        elif m := re.match(r"\s+[0-9a-f]+: R_X86_64_\w+\t(.+?)([+-]0x[0-9a-f]+)?$", line):
            if goes or m[1].startswith(".text"):
                functions[name][1].discard(goes)
                functions[name][1].add((m[1], int(m[2] or "0", 16) + 4))
        elif m := re.match(r"\s+[0-9a-f]+:\t(.+)$", line):
            said = re.sub(r"\s+#\s.*", "", m[1])
            if DIVIDE.search(re.sub(r"<.*", "", said)):
                functions[name][0].append(said)
            goes = bool(GOES.match(said + " ")) and (re.search(r"<(.+?)(?:\+0x[0-9a-f]+)?>$", said) or [said, said])[1]
            if goes:
                functions[name][1].add(goes)
    return functions, starts


def main(file, wanted):
    functions, starts = functions_of(listing(file))
    wrong, seen, todo = [], set(), list(wanted)
    while todo:
        name = todo.pop()
        if isinstance(name, tuple):
            name = starts.get(name, name[0])
        if name in seen:
            continue
        seen.add(name)
        if name not in functions:
            wrong.append("cannot look at %s" % name)
            continue
        divides, goes = functions[name]
        wrong += ["%s divides: %s" % (name, re.sub(r"\s+", " ", said)) for said in divides]
        todo += goes
    for said in wrong:
        print("tests/host/divisions.py: %s: %s" % (os.path.basename(file), said))
    if not wrong:
        print("tests/host/divisions.py: %s: no division in %s and what they call: %d functions" % (os.path.basename(file), ", ".join(wanted), len(seen)))
    return 1 if wrong else 0


if __name__ == "__main__":
    sys.exit(main(sys.argv[1], sys.argv[2:]))
