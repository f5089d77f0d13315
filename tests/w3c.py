#!/usr/bin/env python3
"""w3c.py ORACLE CONVERTER SUITE.. > crates/test_reader/data/w3c/tests

The tests of the W3C's RDF/XML suites, in the order of their manifests, each with its retrieval IRI as the base. Lines are the
Rust's, and the number is what document 01 has for the Rust's error. On standard error: positive tests whose lines are not the
suite's own result, and tests that the converter refuses. README.md says what the commands are.
"""
import pathlib
import re
import sys

from vectors import Judges, entry

HOME = 'http://www.w3.org/2013/RDFXMLTests/'

# document 01's number for what the Rust says
NUMBERS = [
    (r'is not a valid rdf:(ID|bagID|nodeID) value$', 9),
    (r'has already been used as rdf:ID value$', 12),
    (r'is not a valid attribute$', 14),
    (r'^Invalid property element tag name: ', 14),
    (r'^Not both ', 15),
    (r'^No value found for rdf:XMLLiteral value ', 17),
]

TEST = re.compile(r'^<#(\S+)> a rdft:TestXML(Eval|NegativeSyntax);.*?mf:action <([^>]+)>(?:;\s*mf:result <([^>]+)>)?', re.M | re.S)
TERM = re.compile(r'\s*(<[^>]*>|_:[^\s<>"]+|"(?:[^"\\]|\\.)*"(?:@[A-Za-z0-9-]+|\^\^<[^>]*>)?)')


def number(error):
    found = [n for pattern, n in NUMBERS if re.search(pattern, error)]
    assert len(found) == 1, error
    return found[0]


def term(text):
    """Without \\u, and the language in small letters."""
    text = re.sub(r'\\u([0-9A-F]{4})|\\U([0-9A-F]{8})', lambda m: chr(int(m.group(1) or m.group(2), 16)), text)
    tag = re.fullmatch(r'(".*")@([A-Za-z0-9-]+)', text, re.S)
    return f'{tag.group(1)}@{tag.group(2).lower()}' if tag else text


def graph(text):
    lines = [l for l in text.split('\n') if l.strip() and not l.lstrip().startswith('#')]
    triples = {tuple(term(t) for t in TERM.findall(l)) for l in lines}
    assert all(len(t) == 3 for t in triples)
    return triples


def blanks(triples):
    return sorted({t for triple in triples for t in triple if t.startswith('_:')})


def isomorphic(a, b):
    """Is there a mapping of blank nodes from one graph onto the other?"""
    left, right = blanks(a), blanks(b)

    def goes(mapping):
        known = {tuple(mapping.get(t, t) for t in triple) for triple in a
                 if all(not t.startswith('_:') or t in mapping for t in triple)}
        if not known <= b:
            return False
        if len(mapping) == len(left):
            return known == b
        return any(goes({**mapping, left[len(mapping)]: t}) for t in right if t not in mapping.values())

    return len(a) == len(b) and len(left) == len(right) and goes({})


def main(oracle, converter, suites):
    judges = Judges(oracle, converter)
    for suite in map(pathlib.Path, suites):
        for name, kind, action, result in TEST.findall((suite / 'manifest.ttl').read_text()):
            xml = (suite / action).read_bytes()
            pyx, why = judges.pyx(xml)
            if pyx is None:
                print(f'{name}: {why}', file=sys.stderr)
                continue
            lines, error = judges.lines(xml, HOME + action)
            assert error or kind == 'Eval', name
            if kind == 'Eval' and not isomorphic(graph(lines), graph((suite / result).read_text())):
                print(f'{name}: not the graph of {suite.name}/{result}, {error or "no error"}', file=sys.stderr)
            sys.stdout.write(entry(name, HOME + action, pyx, number(error) if error else 0, lines))


if __name__ == '__main__':
    if len(sys.argv) < 4:
        sys.exit(__doc__)
    main(sys.argv[1], sys.argv[2], sys.argv[3:])
