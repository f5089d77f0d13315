#!/usr/bin/env python3
"""kinds.py --count COMMAND --pyx2nt PROGRAM

Executed instructions of one event of each kind at several sizes: the figures that the constants of docs/COST.md are read from. The arguments
and what a figure is are those of hostile.py.
"""
import argparse
import itertools

from hostile import bindings, counted, nested, root, tag, words

SIZES = (1, 100, 1_000, 10_000, 30_000)
IRIS = (10, 100, 500, 1_000)
COUNTS = (1, 2, 8, 16, 32, 63)


def kinds():
    """what grows, its sizes, and for a size the document before and the event"""
    inner = root() + tag('a')
    spaced = root(('xmlns:n', 'http://n/'))
    literal = inner + tag('a', ('r:parseType', 'Literal'))
    children = inner + tag('a', ('r:parseType', 'Collection'))
    named = lambda k, prefix: [(prefix + w, '') for w in itertools.islice(words(2), k)]
    yield 'instruction, its bytes', SIZES, lambda n: (inner, '?' + 'v' * n + '\n')
    yield 'text, its bytes', SIZES, lambda n: (inner + tag('a'), '-' + 'v' * n + '\n')
    yield 'start tag of a property, bytes of its name', (1, 10, 100, 1_000), lambda n: (inner, tag('a' * n))
    yield 'start tag of a property, depth', (3, 33, 63), lambda n: (root() + nested(n - 2), tag('a'))
    yield 'start tag of a node, depth', (2, 32, 64), lambda n: (root() + nested(n - 2), tag('a'))
    yield 'attributes, no line', (0, *COUNTS), lambda k: (spaced + tag('a'), tag('a', ('r:parseType', 'x'), *named(k, 'n:')))
    yield 'attributes, a line each', COUNTS, lambda k: (spaced + tag('a'), tag('a', *named(k, 'n:')))
    yield 'declarations', (0, *COUNTS), lambda k: (inner, tag('a', *bindings(k)))
    yield 'value that is written, its bytes', SIZES, lambda n: (spaced, tag('a', ('n:p', 'v' * n)))
    yield 'rdf:about, its bytes', IRIS, lambda n: (root(), tag('a', ('r:about', 'http://e/' + 'v' * n)))
    yield 'rdf:about on a base of 20 bytes, its bytes', IRIS, lambda n: (root(('xml:base', 'http://e/' + 'a' * 11)), tag('a', ('r:about', 'v' * n)))
    yield 'rdf:about empty, bytes of the base', IRIS, lambda n: (root(('xml:base', 'http://e/' + 'a' * n)), tag('a', ('r:about', '')))
    yield 'end tag of a property, bytes of its text', SIZES, lambda n: (inner + tag('a') + '-' + 'v' * n + '\n', ')a\n')
    yield 'end tag of a Collection, its children', (0, 1, 10, 50, 150), lambda n: (children + (tag('a') + ')a\n') * n, ')a\n')
    yield 'in Literal content: text, its bytes', SIZES, lambda n: (literal, '-' + 'v' * n + '\n')
    yield 'in Literal content: attributes', COUNTS, lambda k: (literal, tag('a', *named(k, '')))
    yield 'end tag of a Literal property, bytes of its text', SIZES, lambda n: (literal + '-' + 'v' * n + '\n', ')a\n')


def main():
    parser = argparse.ArgumentParser()
    parser.add_argument('--count', required=True)
    parser.add_argument('--pyx2nt', required=True)
    args = parser.parse_args()
    print('| event, and what grows | size | input | output | instructions |')
    print('|---|---|---|---|---|')
    for what, sizes, made in kinds():
        for size in sizes:
            before, event = made(size)
            without, had, _ = counted(args.count.split(), args.pyx2nt, before + '?\n')
            with_it, has, _ = counted(args.count.split(), args.pyx2nt, before + event + '?\n')
            print(f'| {what} | {size:,} | {len(event.encode()):,} | {has - had:,} | {with_it - without:,.0f} |', flush=True)


if __name__ == '__main__':
    main()
