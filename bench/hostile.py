#!/usr/bin/env python3
"""hostile.py --count COMMAND --pyx2nt PROGRAM [NAME..]

Executed instructions of single events that are made to cost as much as they can, each behind a document that makes them dear.

  --count    runs a program and says "insns=N rep-turns=N" on standard error: COMMAND PROGRAM < INPUT
  --pyx2nt   the program of this repository, built by rt run in crates/pyx2nt
  NAME       the start of the names of the events to measure; all of them where none is given

The figure of an event is that of the document with it less that of the document without it; an instruction follows in both, so that
the event is known to be over. A turn of a repeated string instruction counts as one sixteenth. Of an accepted event the last column is
the figure by the byte of its input and output together, of a refused one there is none: it is the last of its document.

Ends in 'N passed, M failed': an accepted event may cost MOST_A_BYTE for each byte, a refused one MOST_REFUSED in all.
"""
import argparse
import itertools
import re
import subprocess
import sys
import tempfile

MOST_A_BYTE = 1_500
MOST_REFUSED = 200_000_000

RDF = 'http://www.w3.org/1999/02/22-rdf-syntax-ns#'
LETTERS = 'abcdefghijklmnopqrstuvwxyzABCDEFGHIJKLMNOPQRSTUVWXYZ'
EVENT = 32_768


def tag(name, *attributes):
    return '(' + name + '\n' + ''.join(f'A{a} {v}\n' for a, v in attributes)


def words(size):
    """different names of so many letters"""
    return map(''.join, itertools.product(LETTERS, repeat=size))


def shortest():
    """different names, the shortest first; a second byte may be a digit, and letters of two bytes are as short as two letters"""
    further = LETTERS + '0123456789-._'
    yield from LETTERS
    yield from (a + b for a in LETTERS for b in further)
    greek = [chr(c) for c in range(0xC0, 0x300) if c not in (0xD7, 0xF7)]
    yield from greek
    yield from (a + b + c for a in LETTERS for b in further for c in further)


def filled(front, line, names, room=EVENT):
    """the start tag `front` with as many attributes, made by `line` of a name each, as an event has room for"""
    out, size = [front], len(front.encode())
    for name in names:
        more = line(name)
        size += len(more.encode())
        if size > room:
            break
        out.append(more)
    return ''.join(out)


def root(*more, default='http://e/'):
    """rdf:RDF with the prefix r and a default namespace, which is looked for last of all"""
    return tag('r:RDF', *more, ('xmlns:r', RDF), ('xmlns', default))


def nested(depth, name='a', last=''):
    """inside rdf:RDF, nodes and properties in each other; the innermost is a node where depth is odd"""
    return ''.join(tag(name) for _ in range(depth)) + last


def bindings(count, prefix='p', space='u'):
    """count declarations of prefixes of one length"""
    return [('xmlns:' + prefix + w, space) for w in itertools.islice(words(2), count)]


LONG = 'http://e/' + 'n' * 1_006  # 1,015 bytes


def accepted():
    """name, the document before, the event"""
    full = root(*bindings(62)) + tag('a', *bindings(64, 'q'))
    # -- start tags
    yield 'property', root() + tag('a'), tag('a')
    yield 'property at depth 63', root() + nested(61), tag('a')
    yield 'property at depth 63 with 128 bindings', full + nested(60), tag('a')
    yield 'property on a long namespace', root(default=LONG) + tag('a'), tag('a')
    yield 'property on a long namespace at depth 63 with 128 bindings', root(*bindings(62), default=LONG) + tag('a', *bindings(64, 'q')) + nested(60), tag('a')
    yield 'node', root(), tag('a')
    yield 'node at depth 64', root() + nested(62), tag('a')
    yield 'node at depth 64 with 128 bindings', full + nested(61), tag('a')
    yield 'rdf:li at depth 64', full + nested(60), tag('r:li')
    yield 'parseType Resource', full + nested(60), tag('a', ('r:parseType', 'Resource'))
    deep = root(*bindings(62)) + tag('a', *bindings(63, 'q'), ('xmlns:n', LONG))
    some = [('n:' + w, '') for w in itertools.islice(words(1), 52)]
    yield '52 attributes on a long namespace, no line', deep, tag('a', ('r:parseType', 'x'), *some)
    yield '52 attributes on a long namespace', deep + tag('a'), tag('a', *some)
    many = [('n:' + w, '') for w in itertools.islice(words(2), 63)]
    yield '63 attributes on a long namespace, no line', deep, tag('a', ('r:parseType', 'x'), *many)
    yield '63 attributes of three namespaces that end alike, no line', root(('xmlns:l', LONG[:-1] + 'l'), ('xmlns:m', 'm' + LONG[1:]), ('xmlns:n', LONG)) + tag('a'), \
        tag('a', ('r:parseType', 'x'), *[(p + ':' + w, '') for w in itertools.islice(words(1), 21) for p in 'lmn'])
    yield '63 attributes of three namespaces that end alike behind 124 bindings, no line', \
        root(('xmlns:l', LONG[:-1] + 'l'), ('xmlns:m', 'm' + LONG[1:]), ('xmlns:n', LONG), *bindings(59)) + tag('a', *bindings(63, 'q')), \
        tag('a', ('r:parseType', 'x'), *[(p + ':' + w, '') for w in itertools.islice(words(1), 21) for p in 'lmn'])
    yield '64 ignored attributes', full, tag('a', *[('xml' + w, '') for w in itertools.islice(words(2), 64)])
    yield '63 declarations', root() + tag('a'), tag('a', *bindings(63))
    yield '63 declarations of one namespace and a prefix last in force', root(*bindings(62)) + tag('a'), tag('q:a', *bindings(63, 'q', 'u'), ('xmlns:q', 'u'))
    yield '31 declarations and 32 attributes of the last', root(*bindings(62)) + tag('a'), \
        tag('a', *bindings(31, 'q'), ('r:parseType', 'x'), *[('paa:' + w, '') for w in itertools.islice(words(1), 32)])
    # -- rdf:ID
    letters = [('xmlns:' + w, 'u') for w in LETTERS if w != 'r']
    crowd = lambda base: root(*letters, *bindings(10), ('xml:base', base), default=LONG) + tag('a', *bindings(64, 'q'))
    used = lambda ids: ''.join(tag('a', ('r:ID', w)) + ')a\n' for w in ids)
    for size, base in ((2, 'a:'), (3, 'a:'), (4, 'a:'), (6, 'a:'), (10, 'a:'), (2, 'http://e/' + 'b' * 50), (6, 'http://e/' + 'b' * 47),
                       (8, 'http://e/' + 'b' * 45), (10, 'http://e/' + 'b' * 43), (18, 'http://e/' + 'b' * 35)):
        ids = [w + 'x' * (size - 2) for w in itertools.islice(words(2), 512)]
        name = f'rdf:ID of {size} bytes behind 511 others on a base of {len(base)}'
        yield name, root(('xml:base', base)) + tag('a') + used(ids[:511]), tag('a', ('r:ID', ids[511]))
        yield name + ', at depth 63 with 127 bindings', crowd(base) + used(ids[:511]) + nested(60), tag('a', ('r:ID', ids[511]))
    yield 'rdf:ID, the first', root(('xml:base', 'a:')) + tag('a'), tag('a', ('r:ID', 'a'))
    yield 'rdf:ID on a base of 1,022 bytes behind 31 others', \
        root(('xml:base', 'http://e/' + 'b' * 1_013)) + tag('a') + used(LETTERS[:31]), tag('a', ('r:ID', 'Z'))
    yield 'rdf:ID on a base of 1,022 bytes behind 31 others at depth 63 with 127 bindings', \
        crowd('http://e/' + 'b' * 1_013) + used(LETTERS[:31]) + nested(60), tag('a', ('r:ID', 'Z'))
    bases = [w + ':' + 'b' * 58 for w in itertools.islice(words(2), 512)]
    under = root() + ''.join(tag('a', ('xml:base', b)) + tag('a', ('r:ID', 'x')) + ')a\n)a\n' for b in bases[:511])
    yield 'rdf:ID under another base than 511 others', under + tag('a', ('xml:base', bases[511])), tag('a', ('r:ID', 'x'))
    yield 'rdf:ID under another base than 511 others at depth 63 with 127 bindings', \
        under + tag('a', ('xml:base', bases[511]), *bindings(63)) + tag('a', *bindings(62, 'q')) + nested(59), tag('a', ('r:ID', 'x'))
    # -- references
    climb = 'http://e/' + 'a/' * 500
    yield 'rdf:about with 300 times ../', root(('xml:base', climb)), tag('a', ('r:about', '../' * 300))
    yield 'rdf:about up and down', root(('xml:base', climb)), tag('a', ('r:about', 'a/../' * 6_500))
    yield 'rdf:about down, then up', root(('xml:base', 'a:/')), tag('a', ('r:about', 'a/' * 6_000 + '../' * 6_000))
    yield 'rdf:about empty on a long base', root(('xml:base', climb)) + tag('a'), tag('a', ('r:resource', ''))
    yield 'four references on a long base', root(('xml:base', climb)) + tag('a'), tag('a', ('r:resource', ''), ('r:about', ''), ('r:datatype', ''), ('r:type', ''))
    yield 'four references on a long base, no line', root(('xml:base', climb)) + tag('a'), \
        tag('a', ('r:parseType', 'x'), ('r:resource', ''), ('r:about', ''), ('r:datatype', ''), ('r:type', ''))
    yield 'rdf:about of escapes', root(), tag('a', ('r:about', 'a:' + '%41' * 300))
    yield 'rdf:about in another script', root(), tag('a', ('r:about', 'a:' + '\u3042' * 300))
    yield 'xml:lang of 14,000 subtags', root(), tag('a', ('xml:lang', 'x' + '-a' * 14_000))
    yield 'xml:lang of 3,500 subtags', root() + tag('a'), tag('a', ('xml:lang', 'de' + '-abcdefgh' * 3_500))
    yield 'rdf:nodeID in another script', root(), tag('a', ('r:nodeID', '\u3042' * 10_000))
    yield 'name in another script', root() + tag('a'), tag('\u3042' * 330)
    # -- values
    yield 'value of quotes', root(), tag('a', ('r:bagID', 'b'), ('xmlns:e', 'a:'), ('e:p', '"' * 30_000))
    yield 'value with a quote', root(), tag('a', ('xmlns:e', 'a:'), ('e:p', 'v' * 15_000 + '"' + 'v' * 15_000))
    yield 'value of escapes', root(), tag('a', ('xmlns:e', 'a:'), ('e:p', '\\n' * 15_000))
    yield 'namespace of forbidden characters', root(('xmlns:e', 'a:' + '^' * 900)) + tag('a'), tag('e:a')
    # -- text and end tags
    yield 'instruction', root() + nested(62), '?\n'
    yield 'blank text', root() + nested(62), '-\n'
    yield 'text of one byte', root() + nested(62), '-t\n'
    yield 'text of quotes', root() + nested(2), '-' + '"' * 32_000 + '\n'
    yield 'text of 16,000 lines', root() + nested(2), '-\n' * 16_000
    yield 'text in another script', root() + nested(2), '-' + '\u3042' * 10_000 + '\n'
    yield 'end of a property', root() + nested(62), ')a\n'
    yield 'end of a property on a long namespace', root(default=LONG) + nested(2), ')a\n'
    yield 'end of a property with quotes', root() + nested(2) + '-' + '"' * 32_000 + '\n', ')a\n'
    yield 'end of a property with a quote', root() + nested(2) + '-' + 'v' * 16_000 + '"' + 'v' * 16_000 + '\n', ')a\n'
    yield 'end of a property with rdf:ID', root(('xml:base', 'a:')) + tag('a') + tag('a', ('r:ID', 'b')), ')a\n'
    yield 'end of a node', root() + nested(61), ')a\n'
    yield 'end of a node of a long name', root() + nested(2) + tag('a', ('r:about', 'a:' + 'n' * 1_020)), ')a\n'
    yield 'end of a child of a long name', root() + tag('a') + tag('a', ('r:parseType', 'Collection')) + tag('a', ('r:about', 'a:' + 'n' * 1_020)), ')a\n'
    yield 'end of a Collection of 150', root() + tag('a') + tag('a', ('r:parseType', 'Collection')) + (tag('a') + ')a\n') * 150, ')a\n'
    yield 'end of a Collection of none', root() + tag('a') + tag('a', ('r:parseType', 'Collection')), ')a\n'
    # -- Literal content
    inside = tag('a', ('r:parseType', 'Literal'))
    yield 'Literal: start tag', root() + tag('a') + inside + nested(60), tag('a')
    yield 'Literal: start tag with 128 bindings', full + nested(0) + inside + nested(58), tag('qbl:a')
    yield 'Literal: start tag with the first of 128 bindings', full + nested(0) + inside + nested(58), tag('r:a')
    yield 'Literal: 52 attributes', full + inside, tag('a', *[(w, '') for w in itertools.islice(words(1), 52)])
    yield 'Literal: 64 attributes', full + inside, tag('a', *[(w, '') for w in itertools.islice(shortest(), 64)])
    yield 'Literal: 52 attributes of the first of 128 bindings', full + inside, tag('a', *[('r:' + w, '') for w in itertools.islice(words(1), 52)])
    yield 'Literal: 32 declarations and 32 attributes', root() + tag('a') + inside, \
        tag('a', *bindings(32), *[('r:' + w, '') for w in itertools.islice(words(1), 32)])
    yield 'Literal: values of quotes', root() + tag('a') + inside, tag('a', ('a', '"' * 7_000))
    yield 'Literal: text', root() + tag('a') + inside + nested(60), '-t\n'
    yield 'Literal: text of ampersands', root() + tag('a') + inside, '-' + '&' * 9_000 + '\n'
    yield 'Literal: text with an ampersand', root() + tag('a') + inside, '-' + 'v' * 16_000 + '&' + 'v' * 16_000 + '\n'
    yield 'Literal: end tag', root() + tag('a') + inside + nested(60), ')a\n'
    yield 'Literal: end of the property', root() + tag('a') + inside + '-t\n', ')a\n'
    yield 'Literal: end of the property with ampersands', root() + tag('a') + inside + '-' + '&' * 9_000 + '\n', ')a\n'


def refused():
    """name, the document before, the event, the number"""
    inside = tag('a', ('r:parseType', 'Literal'))
    far = 'n' * 32_000
    plain = lambda n: f'A{n} \n'
    one = lambda n: f'Ap:{n} \n'
    yield '4,095 attributes on a namespace of 32,000 bytes', tag('r:RDF', ('xmlns:r', RDF), ('xmlns:p', far)), filled(tag('p:a'), one, words(3)), 7
    yield '300 attributes on a namespace of 16,000 bytes', tag('r:RDF', ('xmlns:r', RDF), ('xmlns:p', 'n' * 16_000)), tag('p:a', *[('p:' + w, '') for w in itertools.islice(words(2), 300)]), 7
    yield 'as many attributes as there can be', root(), filled(tag('a'), plain, shortest()), 7
    yield 'as many prefixed ones', root(('xmlns:p', 'u')), filled(tag('a'), one, shortest()), 7
    yield 'as many with an unknown prefix', root(*bindings(60)) + tag('a', *bindings(64, 'q')), filled(tag('a'), one, shortest()), 7
    yield 'as many declarations', root(), filled(tag('a'), lambda n: f'Axmlns:{n} u\n', shortest()), 7
    half = filled(tag('a'), lambda n: f'Axmlns:{n} u\n', shortest(), EVENT // 2)
    yield 'declarations and attributes', root(), filled(half, lambda n: f'Ar:{n} \n', shortest()), 7
    yield 'declarations and attributes of the last', root(), filled(half + 'Axmlns:zzzz v\n', lambda n: f'Azzzz:{n} \n', shortest()), 7
    yield 'Literal: as many attributes as there can be', root() + tag('a') + inside, filled(tag('a'), plain, shortest()), 7
    twice = root(('xmlns:p', 'n' * 12_000 + 'p' + 'n' * 12_000)) + tag('a', ('xmlns:q', 'n' * 12_000 + 'q' + 'n' * 12_000))
    yield 'two namespaces of 24,001 bytes that end alike', twice, filled(tag('a'), lambda n: f'Ap:{n} \nAq:{n} \n', shortest()), 7
    names = ['q' + w for w in itertools.islice(words(1), 46)]
    bound = [('xmlns:' + w, w + 'n' * 990) for w in names]
    lines = lambda n: ''.join(f'A{w}:{n} \n' for w in names)
    yield '46 namespaces of 992 bytes that end alike', root(*bound[:23]) + tag('a', *bound[23:]), filled(tag('a'), lines, shortest()), 7
    yield 'names that end alike', root(('xmlns:p', 'u')), filled(tag('a'), lambda n: f'Ap:{n}{"x" * 16} \n', words(2)), 7
    yield 'names that end alike, as written', root() + tag('a') + inside, filled(tag('a'), lambda n: f'A{n}{"x" * 16} \n', words(2)), 7
    yield 'names that end alike in eight', root(('xmlns:p', 'u')), filled(tag('a'), lambda n: f'Ap:{n}{"x" * 8} \n', words(2)), 7
    yield 'the last two repeat', root(), filled(tag('a'), plain, shortest(), EVENT - 12) + 'AZZZ \nAZZZ \n', 6
    yield '51 attributes, the first and the last repeat', root(('xmlns:p', LONG)), tag('a', *[('p:' + w, '') for w in itertools.islice(words(1), 50)], ('p:a', '')), 6
    yield 'rdf:ID used before, behind 511 others', \
        root(('xml:base', 'http://e/' + 'b' * 50)) + tag('a') + ''.join(tag('a', ('r:ID', w)) + ')a\n' for w in itertools.islice(words(2), 512)), tag('a', ('r:ID', 'aa')), 12
    yield 'a base of 32,000 bytes and a reference', root(), tag('a', ('xml:base', 'a:/' + 'b/' * 10_000), ('r:about', '../' * 3_500)), 7
    yield 'an event of 32,769 bytes', root(), '-\n' * 16_384 + '-', 7
    yield 'no text at its end', root(), '-' + 'v' * 32_700 + '\x01\n', 5
    yield 'lines of 65,537 bytes', root() + nested(2) + '-' + '"' * 32_766 + '\n', ')a\n', 2


def counted(command, program, text):
    with tempfile.TemporaryFile() as source:
        source.write(text.encode())
        source.seek(0)
        run = subprocess.run([*command, program], stdin=source, stdout=subprocess.PIPE, stderr=subprocess.PIPE)
    found = re.search(rb'insns=(\d+) rep-turns=(\d+)', run.stderr)
    if not found:
        sys.exit(f'{program}: no count: {run.stderr.decode("utf-8", "replace")}')
    *lines, last = run.stdout.split(b'\n')[:-1]
    return int(found.group(1)) + int(found.group(2)) / 16, sum(len(x) + 1 for x in lines), last.decode()


def main():
    parser = argparse.ArgumentParser()
    parser.add_argument('--count', required=True)
    parser.add_argument('--pyx2nt', required=True)
    parser.add_argument('names', nargs='*')
    args = parser.parse_args()
    passed = failed = 0
    print('| event | input | output | answer | instructions | a byte |')
    print('|---|---|---|---|---|---|')
    for name, before, event, number in itertools.chain(((*x, 0) for x in accepted()), refused()):
        if args.names and not any(name.startswith(x) for x in args.names):
            continue
        without, had, _ = counted(args.count.split(), args.pyx2nt, before + '?\n')
        with_it, has, last = counted(args.count.split(), args.pyx2nt, before + event + '?\n')
        answer = int(last.split()[2])
        size, more, cost = len(event.encode()), has - had, with_it - without
        # an accepted event leaves an element open: 6 at the end of the input, one event later
        open_yet = number == 0 and answer == 6 and has >= had
        good = (open_yet and cost <= MOST_A_BYTE * (size + more)) or (number and answer == number and cost <= MOST_REFUSED)
        passed, failed = passed + bool(good), failed + (not good)
        by_byte = f'{cost / (size + more):,.0f}' if number == 0 else ''
        print(f'| {name} | {size:,} | {more:,} | {answer if number else 0} | {cost:,.0f} | {by_byte} |' + ('' if good else f' **over** {last}'), flush=True)
    print(f'{passed} passed, {failed} failed')


if __name__ == '__main__':
    main()
