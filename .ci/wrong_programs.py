#!/usr/bin/env python3
"""Whether each wrong program, crates/*/must-fail/*.edit, is refused where it is wrong.

    wrong_programs.py LOG    reads what `rt ci` or `rt must-fail` said; prints a line for each wrong program that is refused elsewhere

rt tries each wrong program by itself, and says the place of the first error. Most of them change the body of one function, of which the proofs
of other functions see the contract alone. So that place must lie in the proof of this function, proofs/NAME, or proofs/+NAME where it calls
itself; or, for what rt found no proof of by itself, in its text. What changes more than a body, a definition say, must be refused in its crate.
A name that a proof cites and that the wrong program took away is no refusal, here or there. Of what is not refused at all rt itself speaks.
"""
import re
import sys
from pathlib import Path

REFUSED = re.compile(r'^rt: must-fail (\w+)/(\S+)\.edit: refused, as it must be(?: \((only [^)]*)\))?(?:: (.*))?$', re.M)
PROOF = re.compile(r'(?:note: )?(?:\./)?proofs/\+?(\w+)/\w+\.antt:\d+:\d+: ')
SOURCE = re.compile(r'(?:note: )?(?:\./)?src/\w+\.rt:(\d+):\d+: ')
# With the attributes above it, where rt has the place of an exported function; a method stands further in.
FUNCTION = re.compile(r'^(?:#\[.*\]\n)*( *)(?:pub )?(?:extern "C" )?fn (\w+)', re.M)
BODY = re.compile(r'^ *(?:.*fn .*)?\{$', re.M)


class Crate:
    def __init__(self, name):
        self.folder = Path('crates') / name
        (source,) = (self.folder / 'src').glob('*.rt')
        self.source = source.read_text()
        # Of each function where it begins, where its body does, and where both end.
        self.functions = {}
        for found in FUNCTION.finditer(self.source):
            body = BODY.search(self.source, found.start()).end()
            indent, name = found.groups()
            self.functions[name] = (found.start(), body, self.source.index(f'\n{indent}}}\n', body))

    def changed(self, edit):
        """The function whose body is all that an edit changes, or None."""
        names, file = set(), ''
        for line in (self.folder / 'must-fail' / f'{edit}.edit').read_text().split('\n'):
            if line.startswith('file: '):
                file = line.removeprefix('file: ')
            elif line.startswith('old: '):
                at = self.source.find(line.removeprefix('old: ')) if file.startswith('src/') else -1
                names.add(next((name for name, (_, start, end) in self.functions.items() if start <= at < end), None))
        return names.pop() if len(names) == 1 else None

    def function_at(self, place):
        """The function in which a place lies, or None. An edit leaves each line where it was."""
        if found := PROOF.match(place):
            return found.group(1)
        if found := SOURCE.match(place):
            line = int(found.group(1)) - 1
            lines = {name: [self.source.count('\n', 0, at) for at in spans] for name, spans in self.functions.items()}
            return next((name for name, (start, _, end) in lines.items() if start <= line <= end + 1), None)
        return None


def elsewhere(crate, edit, only, place):
    """Why the refusal of an edit does not count, or None."""
    if only and 'took away' in only:
        return f'a proof cites what it took away: {place}'
    changed = crate.changed(edit)
    if changed and crate.function_at(place) != changed:
        return f'it changes {changed}, and is refused at {place or "no place"}'
    return None


def main(words):
    if len(words) != 1:
        sys.exit(__doc__)
    crates, well, wrong = {}, 0, 0
    for name, edit, only, place in REFUSED.findall(Path(words[0]).read_text()):
        if name not in crates:
            crates[name] = Crate(name)
        why = elsewhere(crates[name], edit, only, place)
        if why:
            print(f'wrong program {name}/{edit}: {why}')
            wrong += 1
        else:
            well += 1
    print(f'wrong programs refused where they are wrong: {well}, elsewhere: {wrong}')
    sys.exit(wrong > 0)


main(sys.argv[1:])
