"""What the scripts beside it share: the oracle, the converter, and a document in the form that `test_reader` reads."""
import subprocess

# The Rust refuses xml:lang="", which clears the language here. It is given this tag in its place.
CLEARED = 'x-cleared'


class Judges:
    """The commands that answer for the Rust and for the conversion to PYX."""

    def __init__(self, oracle, converter):
        self.oracle, self.converter = oracle, converter

    def lines(self, xml, base=None):
        """The Rust's lines, and its error or None."""
        run = subprocess.run([self.oracle] + ([base] if base else []), input=xml, stdout=subprocess.PIPE)
        lines = run.stdout.decode().split('\n')[:-1]
        error = lines.pop()[len('# error: '):] if lines and lines[-1].startswith('# error: ') else None
        return ''.join(l + '\n' for l in lines), error

    def pyx(self, xml, lax=False):
        """The document as PYX, or None and the reason."""
        run = subprocess.run(['python3', self.converter] + ['--lax'] * lax, input=xml, stdout=subprocess.PIPE,
                             stderr=subprocess.PIPE)
        if run.returncode:
            return None, run.stderr.decode().strip()
        return run.stdout.decode(), None


def without_cleared(lines):
    """The Rust's lines as they are where the tag clears: a literal is plain, and in XML text the value is empty."""
    return lines.replace(f'"@{CLEARED} ', '" ').replace(f'xml:lang=\\"{CLEARED}\\"', 'xml:lang=\\"\\"')


def entry(name, base, pyx, number, lines):
    """The marks `=`, `>` and `.` begin no line of PYX or N-Triples."""
    assert all(l[0] in '(A)-?' for l in pyx.split('\n')[:-1]), name
    assert all(l[0] in '<_' for l in lines.split('\n')[:-1]), name
    head = f'= {name} {base}\n' if base else f'= {name}\n'
    return head + pyx + f'> {number}\n' + lines + '.\n'
