#!/usr/bin/env python3
"""iceshaft.py ICESHAFT

What iceshaft writes and tells: documents from files, one of them refused, and from standard input; with a base; XMP packets; arguments
that are wrong; files that cannot be opened or read; an output that fails. Every trial compares all of both outputs.
"""
import os
import pathlib
import resource
import shlex
import subprocess
import sys
import tempfile

ROOT = pathlib.Path(__file__).parent.parent
DATA = ROOT / 'crates' / 'iceshaft' / 'data'
SAMPLES = ROOT / 'samples'
PATIENCE = 60
BASE = 'http://pictures.example/2026/'
SIDECAR_BASE = 'http://pictures.example/2026/11/17/0512.xmp'
MOST = 4096  # bytes of an argument
MOST_BASE = 1024  # bytes of a base
TAKES = b'; it takes --pyx [--base IRI] [--xmp] [FILE..]\n'
DC = b'http://purl.org/dc/elements/1.1/'


def triple(subject, name, value):
    return b'%s <%s%s> %s .\n' % (subject, DC, name, value)


COVER = b'<http://pictures.example/2026/#cover>'
NODE = b'_:riog00000002'
FIRST = triple(COVER, b'title', b'"Harbour at night"') + triple(COVER, b'creator', NODE) + triple(NODE, b'title', b'"Desk"')
REFUSED = triple(b'<http://pictures.example/2026/0418.jpg>', b'title', b'"The line before the refusal"')
SIDECAR = (SAMPLES / 'sidecar.nt').read_bytes()
# what the base reads of it: the wrapper is a node, in which rdf:RDF may not stand
WRAPPER = (b'_:riog00000001 <adobe:ns:meta/xmptk> "Nordlicht Ablage 2.6" .\n'
           b'_:riog00000001 <http://www.w3.org/1999/02/22-rdf-syntax-ns#type> <adobe:ns:meta/xmpmeta> .\n')
LAST = triple(COVER, b'creator', NODE) + triple(NODE, b'title', b'"The same rdf:ID and the same label, in a document of its own"')


class Tester:
    def __init__(self, command, folder):
        self.command = command
        self.folder = folder
        self.passed = self.failed = 0

    def trial(self, title, words, out=b'', told=b'', text=b'', **how):
        """Run it with these words: all that it writes, and all that it tells."""
        how.setdefault('stdout', subprocess.PIPE)
        done = subprocess.run([*self.command, *words], input=text, stderr=subprocess.PIPE, cwd=self.folder, timeout=PATIENCE, **how)
        got = (done.returncode, done.stdout or b'', done.stderr)
        self.judge(title, got, (0, out, told))

    def judge(self, title, got, wanted):
        if got == wanted:
            self.passed += 1
        else:
            self.failed += 1
            print(f'{title}:\n  got    {got}\n  wanted {wanted}')


def documents(t):
    based = ['--pyx', '--base', BASE]
    t.trial('two files', [*based, 'first.pyx', 'last.pyx'], FIRST + LAST)
    t.trial('one refused between them', [*based, 'first.pyx', 'refused.pyx', 'last.pyx'], FIRST + REFUSED + LAST, b'refused.pyx: refused 16 at event 6\n')
    t.trial('the same file twice', [*based, 'last.pyx', 'last.pyx'], LAST + LAST)
    t.trial('without a base', ['--pyx', 'last.pyx', 'first.pyx'], b'', b'last.pyx: refused 11 at event 1\nfirst.pyx: refused 11 at event 2\n')
    t.trial('standard input', based, FIRST, text=(DATA / 'first.pyx').read_bytes())
    t.trial('standard input, refused', based, REFUSED, b'standard input: refused 16 at event 6\n', (DATA / 'refused.pyx').read_bytes())
    t.trial('an empty input', ['--pyx'], b'', b'standard input: refused 6 at event 1\n')
    t.trial('an empty file, then one', [*based, '/dev/null', 'last.pyx'], LAST, b'/dev/null: refused 6 at event 1\n')
    t.trial('switches in another order', ['--base', BASE, '--pyx', '--pyx', 'last.pyx'], LAST)


def packets(t):
    based = ['--base', SIDECAR_BASE]
    t.trial('a packet', ['--pyx', '--xmp', *based, 'sidecar.pyx'], SIDECAR)
    t.trial('a packet from standard input', ['--pyx', *based, '--xmp'], SIDECAR, text=(SAMPLES / 'sidecar.pyx').read_bytes())
    t.trial('without --xmp', ['--pyx', *based, 'sidecar.pyx'], WRAPPER, b'sidecar.pyx: refused 14 at event 4\n')
    t.trial('without a base', ['--pyx', '--xmp', 'sidecar.pyx'], b'', b'sidecar.pyx: refused 11 at event 6\n')
    t.trial('without either', ['--pyx', 'sidecar.pyx'], WRAPPER, b'sidecar.pyx: refused 14 at event 4\n')
    t.trial('--xmp twice, and first', ['--xmp', '--xmp', *based, '--pyx', 'sidecar.pyx'], SIDECAR)
    t.trial('every file is a packet', ['--pyx', '--xmp', *based, 'sidecar.pyx', 'last.pyx', 'sidecar.pyx'], SIDECAR + SIDECAR,
            b'last.pyx: refused 19 at event 1\n')
    t.trial('an rdf:ID is out', ['--pyx', '--xmp', '--base', BASE, 'first.pyx'], b'', b'first.pyx: refused 19 at event 2\n')
    t.trial('an empty packet', ['--pyx', '--xmp', '/dev/null'], b'', b'/dev/null: refused 6 at event 1\n')
    t.trial('--xmp behind a file', ['--pyx', *based, 'sidecar.pyx', '--xmp'], b'', b'iceshaft: unknown argument: --xmp' + TAKES)
    t.trial('--xmp as the base', ['--pyx', '--base', '--xmp', 'sidecar.pyx'], b'', b'iceshaft: refused 11 at start\n')
    t.trial('--XMP is none', ['--pyx', '--XMP', 'sidecar.pyx'], b'', b'iceshaft: unknown argument: --XMP' + TAKES)
    t.trial('--xmp without --pyx', ['--xmp', 'sidecar.pyx'], b'', b'iceshaft: --pyx is missing: PYX is all that it reads\n')
    t.trial('--xmp and a base that is none', ['--pyx', '--xmp', '--base', 'no IRI', 'sidecar.pyx'], b'', b'iceshaft: refused 11 at start\n')


def arguments(t):
    t.trial('no argument', [], b'', b'iceshaft: --pyx is missing: PYX is all that it reads\n')
    t.trial('no --pyx', ['first.pyx'], b'', b'iceshaft: --pyx is missing: PYX is all that it reads\n')
    t.trial('unknown', ['--pyx', '--fast', 'first.pyx'], b'', b'iceshaft: unknown argument: --fast' + TAKES)
    t.trial('unknown, the longest', ['--pyx', '-' * MOST], b'', b'iceshaft: unknown argument: ' + b'-' * MOST + TAKES)
    t.trial('- is none', ['--pyx', '-'], b'', b'iceshaft: unknown argument: -' + TAKES)
    t.trial('a switch behind a file', ['--pyx', 'last.pyx', '--base', BASE], b'', b'iceshaft: unknown argument: --base' + TAKES)
    t.trial('two bases', ['--pyx', '--base', BASE, '--base', BASE], b'', b'iceshaft: unknown argument: --base' + TAKES)
    t.trial('--base without an IRI', ['--pyx', '--base'], b'', b'iceshaft: --base without an IRI\n')
    t.trial('a base that is none', ['--pyx', '--base', 'no IRI', 'first.pyx', 'last.pyx'], b'', b'iceshaft: refused 11 at start\n')
    t.trial('an empty base', ['--pyx', '--base', ''], b'', b'iceshaft: refused 11 at start\n')
    t.trial('a relative base', ['--pyx', '--base', 'a/b'], b'', b'iceshaft: refused 11 at start\n')
    long = BASE + 'a' * (MOST_BASE - len(BASE))
    t.trial('the longest base', ['--pyx', '--base', long, 'refused.pyx'], REFUSED, b'refused.pyx: refused 16 at event 6\n')
    t.trial('a longer base', ['--pyx', '--base', long + 'a'], b'', b'iceshaft: refused 7 at start\n')
    t.trial('the longest argument', ['--pyx', 'a' * MOST], b'', b'a' * MOST + b': open failed: File name too long\n')
    far = './' * 2000 + 'refused.pyx'
    t.trial('a long name', ['--pyx', '--base', BASE, far], REFUSED, far.encode() + b': refused 16 at event 6\n')
    t.trial('a longer argument', ['--pyx', 'first.pyx', 'a' * (MOST + 1)], b'', b'iceshaft: argument 3 is longer than 4096 bytes\n')


def faults(t):
    based = ['--pyx', '--base', BASE]
    t.trial('a missing file', [*based, 'missing.pyx', 'last.pyx'], LAST, b'missing.pyx: open failed: No such file or directory\n')
    t.trial('a name of two lines', [*based, 'a\nb', 'last.pyx'], LAST, b'a?b: open failed: No such file or directory\n')
    t.trial('no name', [*based, '', 'last.pyx'], LAST, b': open failed: No such file or directory\n')
    t.trial('a folder', [*based, '.', 'last.pyx'], LAST, b'.: read failed after 0 whole events and 0 bytes: Is a directory\n')
    t.trial('many files', [*based, *['last.pyx'] * 2000], LAST * 2000)
    with open('/dev/full', 'wb') as full:
        t.trial('a full device', [*based, 'first.pyx', 'missing.pyx', 'last.pyx'], b'',
                b'first.pyx: write failed after 0 whole events and 0 bytes: No space left on device\n', stdout=full)
    limit = len(FIRST) + 10
    with open(t.folder / 'output', 'wb') as target:
        t.trial('a file that may not grow', [*based, 'first.pyx', 'last.pyx', 'first.pyx'], b'',
                b'last.pyx: write failed after 0 whole events and 10 bytes: File too large\n', stdout=target,
                restore_signals=False, preexec_fn=lambda: resource.setrlimit(resource.RLIMIT_FSIZE, (limit, limit)))
    t.judge('what it holds', (t.folder / 'output').read_bytes(), (FIRST + LAST)[:limit])
    t.trial('standard input closed', based, b'', b'standard input: read failed after 0 whole events and 0 bytes: Bad file descriptor\n',
            preexec_fn=lambda: os.close(0))
    t.trial('standard output closed', [*based, 'last.pyx', 'last.pyx'], b'',
            b'last.pyx: write failed after 0 whole events and 0 bytes: Bad file descriptor\n', preexec_fn=lambda: os.close(1))


def main():
    if len(sys.argv) != 2:
        sys.exit(__doc__)
    with tempfile.TemporaryDirectory() as folder:
        folder = pathlib.Path(folder)
        for source in (*(DATA / name for name in ('first.pyx', 'refused.pyx', 'last.pyx')), SAMPLES / 'sidecar.pyx'):
            (folder / source.name).write_bytes(source.read_bytes())
        # it runs in a folder of its own, so its files are named from the root
        command = [os.path.abspath(word) if os.path.exists(word) else word for word in shlex.split(sys.argv[1])]
        tester = Tester(command, folder)
        for part in (documents, packets, arguments, faults):
            part(tester)
    print(f'{tester.passed} passed, {tester.failed} failed')
    sys.exit(tester.failed > 0)


if __name__ == '__main__':
    main()
