"""What the prover said of an edited crate, in what `rt check` prints of it (wrong_answers.py).

A part (crate_text) is refused by itself where its own text, contract or proof does not hold, and not since something that it names or calls was refused.
A refusal shows that an answer is wrong only where a fact is false: two terms that should be equal and are not, or a statement of which every way of proving
it that works for the right answer fails. A proof that no longer fits the shape of the code, or a rewriting that finds nothing to rewrite, shows nothing.
"""
import collections
import re

Refusal = collections.namedtuple('Refusal', 'part false said')

SECOND_HAND = 'was not admitted'
# Two terms that should be equal are not; what should follow does not, with numbers at which it fails; no way that is given proves it.
FALSE = re.compile(
    r'the two types (?:first )?differ|the two types are|but this has type|` ≟ `'
    r'|must be a path whose two ends are equal'
    r'|All of that holds, and the (?:goal|part) fails|The hypotheses hold, and the goal fails'
    r'|`search`: no proof of|`search` did not prove')
# The proof does not fit the code, or a step of it found nothing to do.
UNFIT = re.compile(r'can be named from here|has no field|no occurrence of|has an instance')

ERROR = re.compile(r'^(?:\S*?/)?((?:src|specs|proofs)/\S+?):(\d+):\d+: error: (.*)$')
VERDICT = re.compile(r'^fn (\S+): (.*)$', re.M)


def errors(text):
    """(file, line, what was said) of each error in a log; what is said goes on in lines that are set in."""
    found = []
    for line in text.split('\n'):
        head = ERROR.match(line)
        if head:
            found.append([head.group(1), int(head.group(2)), head.group(3)])
        elif line.startswith('  ') and found and found[-1] is not None:
            found[-1][2] += '\n' + line
        elif line and found and found[-1] is not None:
            found.append(None)
    return [tuple(e) for e in found if e]


def refusals(crate, text):
    """The parts of a crate that were refused by themselves."""
    found = []
    for file, line, said in errors(text):
        part = crate.at(file, line)
        if part and SECOND_HAND not in said:
            found.append(Refusal(part, bool(FALSE.search(said)) and not UNFIT.search(said), said.split('\n')[0]))
    by_name = {crate.full_name(f): f for f in crate.functions}
    for name, verdict in VERDICT.findall(text):
        if name in by_name and verdict.startswith('no proof'):
            found.append(Refusal(by_name[name], bool(FALSE.search(verdict)), verdict))
    return found
