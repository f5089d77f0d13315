#!/usr/bin/env python3
"""languages.py ORACLE CONVERTER > crates/test_reader/data/languages

Documents with xml:lang="", which clears the language: document 02, request 2. The Rust refuses it, so it is given the tag x-cleared in its
place, which is then taken off its lines. Those that begin with L are the inputs of the team's readings of the request, by their numbers.
README.md says what the two commands are.
"""
import sys

from vectors import CLEARED, Judges, entry, without_cleared

RDF = 'xmlns:rdf="http://www.w3.org/1999/02/22-rdf-syntax-ns#"'
E = 'xmlns:e="http://e/"'


def node(attributes, inner=''):
    return f'<e:P {RDF} {E} rdf:about="http://e/s" {attributes}>{inner}</e:P>'


def root(attributes, inner):
    return f'<rdf:RDF {RDF} {E} {attributes}>{inner}</rdf:RDF>'


EN, DE, NONE = 'xml:lang="en"', 'xml:lang="de"', 'xml:lang=""'

# name, XML, number
DOCUMENTS = [
    ('L1-the-empty-value', node(NONE), 0),
    ('L1-a-blank', node('xml:lang=" "'), 10),
    ('L2-the-whole-start-tag', root(EN, f'<e:P e:a="v" {NONE} e:b="w"/>'), 0),
    ('L3-until-an-inner-one', node(NONE, f'<e:q {EN}>x</e:q><e:q>y</e:q>'), 0),
    ('L3-back-behind-its-end-tag', node(EN, f'<e:q {NONE}></e:q><e:q></e:q>'), 0),
    ('L5-nothing-to-clear', node(NONE, '<e:q>x</e:q>'), 0),
    ('L6-in-Literal-content', node(EN, f'<e:q rdf:parseType="Literal"><b {NONE}>x</b></e:q><e:q>y</e:q>'), 0),
    ('L7-apart-from-no-attribute', node(EN, f'<e:q {NONE}>x</e:q><e:q>y</e:q>'), 0),
    ('L7-through-elements-that-say-nothing', node(EN, f'<e:q {NONE}><e:P><e:q>x</e:q></e:P></e:q><e:q>y</e:q>'), 0),
    ('L8-the-empty-literal', node(EN, f'<e:q {NONE}></e:q>'), 0),
    ('on-rdf-RDF', root(NONE, f'<e:P e:a="v"/><e:P e:a="v" {EN}/><e:P e:a="v"/>'), 0),
    ('a-language-in-rdf-RDF-cleared-in-one-node', root(EN, f'<e:P {NONE} e:a="v"/><e:P e:a="v"/>'), 0),
    ('cleared-twice', node(EN, f'<e:q {NONE}><e:P {NONE} e:a="v"/></e:q>'), 0),
    ('cleared-and-set-again', node(EN, f'<e:q {NONE}><e:P {DE} e:a="v"><e:q {NONE}>x</e:q><e:q>y</e:q></e:P></e:q><e:q>z</e:q>'), 0),
    ('with-a-datatype', node(EN, f'<e:q {NONE} rdf:datatype="http://e/t">x</e:q>'), 0),
    ('with-an-ID', node(f'{EN} xml:base="http://e/"', f'<e:q {NONE} rdf:ID="i">x</e:q>'), 0),
    ('a-property-with-attributes', node(EN, f'<e:q {NONE} e:a="v"/><e:q e:a="v"/>'), 0),
    ('parseType-Resource', node(EN, f'<e:q {NONE} rdf:parseType="Resource"><e:r>x</e:r></e:q><e:q>y</e:q>'), 0),
    ('parseType-Literal-itself', node(EN, f'<e:q {NONE} rdf:parseType="Literal">x</e:q><e:q>y</e:q>'), 0),
    ('in-a-Collection', node(EN, f'<e:q rdf:parseType="Collection"><e:A {NONE} e:a="v"/><e:B e:a="v"/></e:q>'), 0),
    ('items-of-a-container', node(EN, f'<e:q><rdf:Alt><rdf:li {NONE}>x</rdf:li><rdf:li {DE}>y</rdf:li><rdf:li>z</rdf:li></rdf:Alt></e:q>'), 0),
    ('other-parseTypes', node(EN, f'<e:q {NONE} rdf:parseType="x"><b/>c</e:q><e:q>y</e:q>'), 0),
    ('text-before-and-behind-an-element', node(EN, f'<e:q {NONE}>x<e:P e:a="v"/>y</e:q>'), 0),
    ('a-refusal-behind-it', node(EN, f'<e:q {NONE}>x</e:q><e:q xml:lang="-">y</e:q>'), 10),
]


def main(oracle, converter):
    judges = Judges(oracle, converter)
    for name, xml, number in DOCUMENTS:
        lines, error = judges.lines(xml.replace(NONE, f'xml:lang="{CLEARED}"').encode())
        assert (error is None) == (number == 0), (name, error)
        pyx, why = judges.pyx(xml.encode(), lax=number > 0)
        assert pyx is not None, (name, why)
        sys.stdout.write(entry(name, None, pyx, number, without_cleared(lines)))


if __name__ == '__main__':
    if len(sys.argv) != 3:
        sys.exit(__doc__)
    main(*sys.argv[1:])
