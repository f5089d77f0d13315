#!/usr/bin/env python3
"""damage.py PYX2NT

Damaged input for pyx2nt: the sample cut at every byte, with each of its bytes changed, with its lines in another order; noise; lines and
events without end; the sample in pieces. Whatever comes in, the program must end by itself, write lines of N-Triples only, and say at last by which number it
refused, if it did. Prints how many trials ended in which number; stops at the first that is not as it must be.
"""
import collections
import pathlib
import random
import re
import shlex
import subprocess
import sys

SAMPLE = pathlib.Path(__file__).parent.parent / 'samples'
TRIPLE = re.compile(rb'(<[^>]*>|_:\S+) <[^>]*> (<[^>]*>|_:\S+|"([^"\\\n\r]|\\.)*"(@[a-z0-9-]+|\^\^<[^>]*>)?) \.')
REFUSED = re.compile(rb'# refused (\d+) at event (\d+)')
MEGABYTE = 1 << 20


def run(command, text):
    """The lines, and the number that it was refused by, or 0."""
    done = subprocess.run(command, input=text, stdout=subprocess.PIPE, stderr=subprocess.PIPE, timeout=60)
    assert done.returncode == 0 and not done.stderr, (done.returncode, done.stderr, text[:200])
    return verdict(done.stdout, text)


def verdict(out, text):
    assert out == b'' or out.endswith(b'\n'), text[:200]
    lines = out.split(b'\n')[:-1]
    refused = REFUSED.fullmatch(lines[-1]) if lines else None
    if refused:
        lines.pop()
    assert all(TRIPLE.fullmatch(line) for line in lines), (lines, text[:200])
    number = int(refused[1]) if refused else 0
    assert number == 0 or 5 <= number <= 18, (number, text[:200])
    return lines, number


def cut(command, text, whole):
    """Inside a line it is 5. At its end an element is open (6), or the start tag lacks a declaration (8), or all is there but what follows the root."""
    for k in range(len(text)):
        lines, number = run(command, text[:k])
        in_line = k > 0 and text[k - 1:k] != b'\n'
        assert number == 5 if in_line else number in (6, 8) or lines == whole, (k, number)
        in_tag = not in_line and text[k:k + 1] == b'A'
        assert in_tag or lines == whole[:len(lines)], k
        yield number


def changed(command, text, rng):
    for k in range(len(text)):
        yield run(command, text[:k] + bytes([rng.randrange(256)]) + text[k + 1:])[1]


def shuffled(command, text, rng):
    lines = text.splitlines(True)
    for _ in range(300):
        yield run(command, b''.join(lines[:8] + rng.choices(lines, k=60)))[1]


def noise(command, rng, letters):
    for _ in range(300):
        _, number = run(command, bytes(rng.choices(letters, k=rng.randrange(1, 400))))
        assert number > 0
        yield number


def in_pieces(command, text, whole, rng):
    """However the input is divided, the lines are the same: the program waits for what is not there yet."""
    for k in range(40):
        longest = rng.choice((1, 7, 60, 500))
        program = subprocess.Popen(command, bufsize=0, stdin=subprocess.PIPE, stdout=subprocess.PIPE)
        at = 0
        while at < len(text):
            size = rng.randrange(1, longest + 1)
            program.stdin.write(text[at:at + size])
            at += size
        out, _ = program.communicate(timeout=60)
        assert verdict(out, text) == (whole, 0), k
        yield 0


def endless(command):
    """Too long (7), and no line."""
    for front, more in (b'-', b'x'), (b'-', b'x\n-'), (b'(', b'x'), (b'(e:a\nAe:p ', b'x'), (b'?', b'x'), (b'x', b'x'), (b'(e:a\n', b'Ae:p v\n'):
        lines, number = run(command, front + more * (MEGABYTE // len(more)))
        assert (lines, number) == ([], 7), (front, number)
        yield number


def main(program):
    command = shlex.split(program)
    text = (SAMPLE / 'picture.pyx').read_bytes()
    whole = (SAMPLE / 'picture.nt').read_bytes().split(b'\n')[:-1]
    assert run(command, text) == (whole, 0)
    rng = random.Random(1)
    for what, numbers in (
        ('cut', cut(command, text, whole)),
        ('a byte changed', changed(command, text, rng)),
        ('lines in another order', shuffled(command, text, rng)),
        ('noise', noise(command, rng, range(256))),
        ('noise of few characters', noise(command, rng, b'(A)-?\n\n\n :eaxr.\\')),
        ('without end', endless(command)),
        ('in pieces', in_pieces(command, text, whole, rng)),
    ):
        counts = collections.Counter(numbers)
        print(f'{what}: {sum(counts.values())} trials;', ', '.join(f'{number}: {n}' for number, n in sorted(counts.items())), flush=True)


if __name__ == '__main__':
    if len(sys.argv) != 2:
        sys.exit(__doc__)
    main(sys.argv[1])
