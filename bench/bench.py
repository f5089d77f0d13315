#!/usr/bin/env python3
"""bench.py --document FILE --converter FILE --count COMMAND --pyx2nt PROGRAM [--host PROGRAM] [--rust PROGRAM] [--rapper PROGRAM] [--sizes A,B]

Executed instructions and peak memory of readers of RDF/XML on one document at two sizes, side by side.

  --document   a Python script that writes the benchmark document of so many megabytes: FILE MEGABYTES
  --converter  a Python file with convert(document, lax) -> PYX
  --count      runs a program and says "insns=N rep-turns=N" on standard error: COMMAND PROGRAM WORDS < INPUT
  --pyx2nt     the program of this repository, built by rt run in crates/pyx2nt
  --host       the host in C over the same reader: reads the PYX file that it is given
  --rust       rio as it is carried over: reads XML
  --rapper     rapper of raptor2-utils: reads XML

What a figure includes: the whole process, its start too, from input to output. pyx2nt and the host read PYX and parse no XML; the
others read XML. Figures by the triple and by the byte of XML are of the difference between the two sizes, so that no start is in
them. A turn of a repeated string instruction counts as one sixteenth of an instruction.
"""
import argparse
import importlib.util
import os
import re
import subprocess
import sys
import tempfile


def load(path):
    spec = importlib.util.spec_from_file_location('converter', path)
    module = importlib.util.module_from_spec(spec)
    spec.loader.exec_module(module)
    return module


def counted(command, program, words, data):
    with open(data, 'rb') as source:
        run = subprocess.run([*command, program, *words], stdin=source, stdout=subprocess.PIPE, stderr=subprocess.PIPE)
    found = re.search(rb'insns=(\d+) rep-turns=(\d+)', run.stderr)
    if not found:
        sys.exit(f'{program}: no count: {run.stderr.decode("utf-8", "replace")}')
    lines = run.stdout.split(b'\n')[:-1]
    if lines and lines[-1].startswith(b'#'):
        sys.exit(f'{program}: {lines[-1].decode()}')
    return int(found.group(1)) + int(found.group(2)) / 16, sorted(lines)


def peak(program, words, data):
    """in kilobytes, by GNU time, which is small itself: a process counts the memory of the one that it was forked from"""
    with open(data, 'rb') as source, open(os.devnull, 'wb') as nothing:
        run = subprocess.run(['sh', '-c', 'command time -f %M "$@"', 'sh', program, *words], stdin=source, stdout=nothing, stderr=subprocess.PIPE)
    return int(run.stderr.split()[-1])


def main():
    parser = argparse.ArgumentParser()
    for name in ('document', 'converter', 'count', 'pyx2nt'):
        parser.add_argument('--' + name, required=True)
    for name in ('host', 'rust', 'rapper'):
        parser.add_argument('--' + name)
    parser.add_argument('--sizes', default='1,4')
    args = parser.parse_args()
    convert = load(args.converter).convert
    with tempfile.TemporaryDirectory() as room:
        files = []
        for size in args.sizes.split(','):
            xml = os.path.join(room, size + '.xml')
            with open(xml, 'wb') as target:
                subprocess.run([sys.executable, args.document, size], stdout=target, check=True)
            pyx = os.path.join(room, size + '.pyx')
            with open(xml, 'rb') as source, open(pyx, 'wb') as target:
                target.write(convert(source.read()))
            files.append((xml, pyx))
        rows = [('pyx2nt', args.pyx2nt, lambda x, p: [], 1)]
        if args.host:
            rows.append(('host in C', args.host, lambda x, p: [p], 1))
        if args.rust:
            rows.append(('rio2nt', args.rust, lambda x, p: [], 0))
        if args.rapper:
            rows.append(('rapper', args.rapper, lambda x, p: ['-q', '-i', 'rdfxml', '-o', 'ntriples', '-', 'http://example.org/'], 0))
        bytes_of = [os.path.getsize(xml) for xml, _ in files]
        print(f'XML of {bytes_of[0]} and {bytes_of[1]} bytes')
        print('| reader | input | instructions | | a triple | a byte of XML | peak KB | |')
        print('|---|---|---|---|---|---|---|---|')
        expected = None
        for name, program, words, which in rows:
            counts, triples, peaks, lines = [], [], [], []
            for pair in files:
                n, out = counted(args.count.split(), program, words(*pair), pair[which])
                counts.append(n)
                triples.append(len(out))
                lines.append(out)
                peaks.append(peak(program, words(*pair), pair[which]))
            expected = expected or lines
            if [len(x) for x in lines] != [len(x) for x in expected]:
                sys.exit(f'{name}: {triples} triples, not {[len(x) for x in expected]}')
            more = counts[1] - counts[0]
            print(f'| {name} | {"PYX" if which else "XML"} | {counts[0]:,.0f} | {counts[1]:,.0f} | {more / (triples[1] - triples[0]):,.0f} | '
                  f'{more / (bytes_of[1] - bytes_of[0]):.1f} | {peaks[0]:,} | {peaks[1]:,} |')
        print(f'triples: {", ".join(str(len(x)) for x in expected)}')


if __name__ == '__main__':
    main()
