#!/usr/bin/env python3
"""compare.py --pyx2nt PROGRAM --rust PROGRAM --generator FILE --converter FILE [--first SEED] [--count N] [--jobs J] [--cleared]

pyx2nt against the Rust on generated documents. The Rust reads a document as XML, pyx2nt the same document as PYX.

  --pyx2nt     the program of this repository (crates/pyx2nt/out/pyx2nt once rt run has built it)
  --rust       reads XML from standard input, a start base as its argument; writes rio's triples, on an error a last line "# error: .."
  --generator  a Python file with generate(seed, damage) -> (document, start base or None, kind of damage or None, expected number)
  --converter  a Python file with convert(document, lax) -> PYX

Seeds FIRST to FIRST + N - 1. Those divisible by 2 give good documents, the others damaged ones. pyx2nt has no start base: where a
document needs one, the root gets it as xml:base, and the Rust as its argument.

The same means: of a good document, the same lines and no refusal; of a damaged one, the same lines, a refusal by both, and the
number that the generator expects. A second root and an element left open the Rust does not see: of these it may write more.

Where a document's mistake is an empty xml:lang, which clears the language and is none here, the Rust must refuse it, with lines that pyx2nt
gives too; such documents are counted apart. With --cleared every other xml:lang of good documents is emptied, and the Rust is given the tag
x-cleared in its place, which is then taken off its lines.

It stops at the first difference and prints the smallest such document that it finds, as XML and as PYX.
"""
import argparse
import collections
import importlib.util
import multiprocessing
import re
import subprocess
import sys

from vectors import CLEARED, without_cleared

SILENT = ('6root', '6open')
LANGUAGE = '10lang'
XML_LANG = re.compile(rb'''(\sxml:lang\s*=\s*)("[^"]*"|'[^']*')''')


def load(path, name):
    spec = importlib.util.spec_from_file_location(name, path)
    module = importlib.util.module_from_spec(spec)
    argv, sys.argv = sys.argv, [path]
    spec.loader.exec_module(module)
    sys.argv = argv
    return module


def begin(options):
    global args, generator, converter
    args = options
    generator = load(args.generator, 'generator')
    converter = load(args.converter, 'converter')


def with_base(pyx, base):
    """the root's attributes, with the base before them unless it has one of its own"""
    if base is None:
        return pyx
    lines = pyx.split(b'\n')
    root = next(i for i, line in enumerate(lines) if line.startswith(b'('))
    for line in lines[root + 1:]:
        if not line.startswith(b'A'):
            break
        if line.startswith(b'Axml:base '):
            return pyx
    return b'\n'.join(lines[:root + 1] + [b'Axml:base ' + base.encode()] + lines[root + 1:])


def cleared(document, value):
    """every other xml:lang with this value"""
    places = [found.span(2) for found in XML_LANG.finditer(document)][::2]
    for start, end in reversed(places):
        document = document[:start] + b'"' + value + b'"' + document[end:]
    return document


def output(program, words, data):
    """lines, and what a last line says of a refusal"""
    lines = subprocess.run([program] + words, input=data, stdout=subprocess.PIPE).stdout.split(b'\n')[:-1]
    if lines and lines[-1].startswith(b'# '):
        return lines[:-1], lines[-1].decode('utf-8', 'replace')
    return lines, None


def compare(seed, size=None):
    """(kind, number of refusal, what differs or None, document, PYX)"""
    words = {} if size is None else {'size': size}
    document, base, kind, number = generator.generate(str(seed), 'any' if seed % 2 else None, **words)
    known = document
    if args.cleared and kind is None:
        document, known = cleared(document, b''), cleared(document, CLEARED.encode())
    pyx = with_base(converter.convert(document, True), base)
    ours, refused = output(args.pyx2nt, [], pyx)
    rust, error = output(args.rust, [] if base is None else [base], known)
    rust = [without_cleared(line.decode()).encode() for line in rust]
    given = int(refused.split()[2]) if refused else 0
    differs = None
    if kind == LANGUAGE and given != number and b'\nAxml:lang \n' in pyx:
        kind = CLEARED
        if error is None or ours[:len(rust)] != rust:
            differs = f'the Rust: {error}'
    elif given != number:
        differs = f'number {given}, expected {number}'
    elif kind in SILENT:
        if rust[:len(ours)] != ours:
            differs = 'lines'
    elif (error is None) != (kind is None):
        differs = f'the Rust: {error}'
    elif ours != rust:
        differs = 'lines'
    return kind, given, differs, document, pyx


def judge(seed):
    try:
        kind, given, differs, _, _ = compare(seed)
        return seed, kind, given, differs
    except Exception as e:
        return seed, None, 0, f'{type(e).__name__}: {e}'


def smallest(seed):
    found = compare(seed)
    for near in [seed] + list(range(seed % 2, 400, 2)):
        for size in (1, 2, 4, 8, 16):
            try:
                other = compare(near, size)
            except (SystemExit, Exception):
                continue
            if other[2] and len(other[4]) < len(found[4]):
                found = other
    return found


def main():
    parser = argparse.ArgumentParser()
    for name in ('pyx2nt', 'rust', 'generator', 'converter'):
        parser.add_argument('--' + name, required=True)
    parser.add_argument('--cleared', action='store_true')
    parser.add_argument('--first', type=int, default=0)
    parser.add_argument('--count', type=int, default=1000)
    parser.add_argument('--jobs', type=int, default=multiprocessing.cpu_count())
    options = parser.parse_args()
    begin(options)
    numbers = collections.Counter()
    good = damaged = apart = 0
    with multiprocessing.Pool(options.jobs, begin, (options,)) as pool:
        for seed, kind, given, differs in pool.imap(judge, range(options.first, options.first + options.count), 64):
            if differs:
                pool.terminate()
                kind, given, differs, document, pyx = smallest(seed)
                print(f'seed {seed}: {differs}\n--- XML\n{document.decode("utf-8", "replace")}\n--- PYX\n{pyx.decode("utf-8", "replace")}')
                sys.exit(1)
            numbers[given] += 1
            good, apart = good + (kind is None), apart + (kind == CLEARED)
            damaged += kind is not None and kind != CLEARED
    print(f'{good + damaged + apart} documents, seeds {options.first} to {options.first + options.count - 1}: {good} good, {damaged} damaged, '
          f'{apart} that clear a language where the Rust refuses, no difference')
    print('refusals by number: ' + ', '.join(f'{n}: {c}' for n, c in sorted(numbers.items()) if n))


if __name__ == '__main__':
    main()
