#!/usr/bin/env python3
"""packets.py ICESHAFT

The documents of crates/test_reader/data/packets, each with two trials. Read in the XMP profile it must give its lines,
and end in its number at its event: a refused document stops with the event that is refused, and one whose name ends in
`at-finish` is refused behind its last. Then the base is given what the profile accepted of it, without the wrapper and
with the wrapper's declarations on rdf:RDF: it must give the same lines.
"""
import pathlib
import shlex
import subprocess
import sys

PACKETS = pathlib.Path(__file__).parent.parent / 'crates' / 'test_reader' / 'data' / 'packets'
PATIENCE = 60
WRAPPER = b'adobe:ns:meta/xmpmeta'  # its expanded name
NOT_WELL_FORMED = 6  # an open element, or no root


class Document:
    def __init__(self, title):
        name, *base = title.split(b' ')
        self.name = name.decode()
        self.base = ['--base', base[0].decode()] if base else []
        self.pyx = []
        self.number = None
        self.expected = b''

    def accepted(self):
        """Its events, but for the one that is refused."""
        whole = events(self.pyx)
        return whole if self.number == 0 or self.at_finish() else whole[:-1]

    def at_finish(self):
        return self.name.endswith('at-finish')

    def told(self):
        return refusal(self.number, len(self.accepted()) + 1) if self.number else b''


def documents():
    found = []
    for line in PACKETS.read_bytes().split(b'\n')[:-1]:
        if line.startswith(b'= '):
            found.append(Document(line[2:]))
        elif line.startswith(b'> '):
            found[-1].number = int(line[2:])
        elif found[-1].number is None:
            found[-1].pyx.append(line)
        elif line != b'.':
            found[-1].expected += line + b'\n'
    return found


def refusal(number, event):
    return b'standard input: refused %d at event %d\n' % (number, event)


def events(pyx):
    """The lines of each event: a start tag with its attributes, adjacent lines of text, any other line."""
    found = []
    for line in pyx:
        first = found[-1][0][:1] if found else b''
        if (first, line[:1]) in ((b'(', b'A'), (b'-', b'-')):
            found[-1].append(line)
        else:
            found.append([line])
    return found


# ---- the base's part

def declared(tag):
    """The declarations of a start tag: prefix to line, the default by the empty one."""
    names = [(line, line[1:].split(b' ')[0]) for line in tag[1:]]
    return {name[6:]: line for line, name in names if name == b'xmlns' or name.startswith(b'xmlns:')}


def is_wrapper(tag):
    prefix, _, local = tag[0][1:].rpartition(b':')
    line = declared(tag).get(prefix, b' ')
    return line.partition(b' ')[2] + local == WRAPPER


def prefixes(tag):
    return {line[1:].split(b' ')[0].rpartition(b':')[0] for line in tag}


def unwrapped(document):
    """The lines without the wrapper's two tags. Of its declarations those go to rdf:RDF that are used and not made anew
    there, as a tag has room for 64."""
    found = []
    wrapper = None
    depth = 0
    used = set().union(*(prefixes(e) for e in document if e[0][:1] == b'('))
    for event in document:
        opens, closes = event[0][:1] == b'(', event[0][:1] == b')'
        depth -= closes
        if opens and depth == 0 and wrapper is None and is_wrapper(event):
            wrapper = event
        elif closes and depth == 0 and wrapper is not None:
            pass
        elif opens and depth == 1 and wrapper is not None:
            own = declared(event)
            moved = [line for prefix, line in declared(wrapper).items() if prefix in used and prefix not in own]
            found += event + moved
        else:
            found += event
        depth += opens
    return found


# ---- the trials

class Tester:
    def __init__(self, command):
        self.command = command
        self.passed = self.failed = 0

    def run(self, words, pyx):
        text = b''.join(line + b'\n' for line in pyx)
        done = subprocess.run([*self.command, '--pyx', *words], input=text, capture_output=True, timeout=PATIENCE)
        return done.returncode, done.stdout, done.stderr

    def judge(self, title, got, wanted):
        if got in wanted:
            self.passed += 1
        else:
            self.failed += 1
            print(f'{title}:\n  got    {got}\n  wanted {" or ".join(map(str, wanted))}')

    def packet(self, d):
        self.judge(d.name, self.run([*d.base, '--xmp'], d.pyx), [(0, d.expected, d.told())])

    def base(self, d):
        """Of a refused document it sees the events before the refusal, behind which the document may still be open."""
        pyx = unwrapped(d.accepted())
        wanted = [(0, d.expected, b'')]
        if d.number:
            wanted.append((0, d.expected, refusal(NOT_WELL_FORMED, len(events(pyx)) + 1)))
        self.judge(f'{d.name}, in the base', self.run(d.base, pyx), wanted)


def main():
    if len(sys.argv) != 2:
        sys.exit(__doc__)
    tester = Tester(shlex.split(sys.argv[1]))
    for document in documents():
        tester.packet(document)
        tester.base(document)
    print(f'{tester.passed} passed, {tester.failed} failed')
    sys.exit(tester.failed > 0)


if __name__ == '__main__':
    main()
