#!/usr/bin/env python3
"""limits.py ORACLE CONVERTER > crates/test_reader/data/limits

Documents at each limit of document 01, and one past it: the first ends in 0, the second in 7. Lines are the Rust's; it has none of these
limits, so for a document past one it is given what stands before the event that is refused. README.md says what the two commands are.
"""
import sys

from vectors import Judges, entry

R = 'xmlns:r="http://www.w3.org/1999/02/22-rdf-syntax-ns#"'
E = 'xmlns:e="http://e/"'


def node(attributes, inner):
    return f'<e:a {E} {R}{attributes}>{inner}</e:a>'


def open_elements(n):
    """n elements, one in the other, the root among them."""
    return node('', '<e:a>' * (n - 1) + '</e:a>' * (n - 1))


def ids(n):
    return f'<r:RDF {R} xml:base="http://e/">' + ''.join(f'<r:Description r:ID="i{k:04}"/>' for k in range(n)) + '</r:RDF>'


def id_bytes(n):
    """IRIs of n bytes in all: 64 each, the last with what is over."""
    base = 'http://e/' + 49 * 'x'
    count, more = divmod(n, 64)
    names = [f'i{k:04}' for k in range(count)]
    names[-1] += more * 'x'
    return f'<r:RDF {R} xml:base="{base}">' + ''.join(f'<r:Description r:ID="{name}"/>' for name in names) + '</r:RDF>'


def attributes(n):
    """The root's two declarations, and properties."""
    return node(''.join(f' e:p{k:02}="v"' for k in range(n - 2)), '')


def bindings(n):
    """64 of the root, 64 of a property in it, the others of a node in that."""
    def declared(letter, count):
        return ''.join(f' xmlns:{letter}{k:02}="http://e/"' for k in range(count))
    return node(declared('n', 62), f'<e:a{declared("m", 64)}><e:a{declared("l", n - 128)}></e:a></e:a>')


def iri(n):
    return node(f' r:about="{"http://e/".ljust(n, "x")}"', '')


def expanded_name(n):
    """A namespace of 1,023 bytes, and a local name."""
    local = 'a' * (n - 1_023)
    return node(f' xmlns:l="{"http://e/".ljust(1_023, "x")}"', f'<l:{local}/>')


def event(n):
    """An instruction: its line has a mark in front and an end."""
    return node('', f'<?x {"y" * (n - 4)}?>')


def held(n):
    """69 bytes of the root, 13 of a property and 32,766 of its text, 15 of a node in it, 13 of a property of that; and a further text."""
    return node('', f'<e:a>{"x" * 32_766}<e:a><e:a>{"y" * (n - 32_876)}</e:a></e:a></e:a>')


# what is limited, the last number within, a document, and in one past the limit how often and which text stands before the event
LIMITS = [
    ('open-elements', 64, open_elements, (64, '<e:a>')),
    ('rdf:IDs', 512, ids, (513, '<r:D')),
    ('bytes-of-rdf:IDs', 32_768, id_bytes, (512, '<r:D')),
    ('attributes', 64, attributes, (1, '<e:a')),
    ('bindings', 128, bindings, (3, '<e:a')),
    ('bytes-of-an-IRI', 1_024, iri, (1, '<e:a')),
    ('bytes-of-an-expanded-name', 1_024, expanded_name, (1, '<l:a')),
    ('bytes-of-an-event', 32_768, event, (1, '<?x')),
    ('held-bytes', 49_152, held, (1, 'yy')),
]


def before(xml, times, text):
    at = -1
    for _ in range(times):
        at = xml.index(text, at + 1)
    return xml[:at]


def main(oracle, converter):
    judges = Judges(oracle, converter)

    def add(name, base, xml, number, known):
        pyx, why = judges.pyx(xml.encode(), lax=number > 0)
        assert pyx is not None, (name, why)
        sys.stdout.write(entry(name, base, pyx, number, judges.lines(known.encode())[0]))

    for what, most, document, place in LIMITS:
        add(f'{most}-{what}', None, document(most), 0, document(most))
        add(f'{most + 1}-{what}', None, document(most + 1), 7, before(document(most + 1), *place))
    for size, number in (1_024, 0), (1_025, 7):
        known = node('', '') if number == 0 else ''
        add(f'{size}-bytes-of-a-start-base', 'http://e/'.ljust(size, 'x'), node('', ''), number, known)


if __name__ == '__main__':
    if len(sys.argv) != 3:
        sys.exit(__doc__)
    main(*sys.argv[1:])
