#!/usr/bin/env python3
"""documents.py ORACLE CONVERTER GENERATOR > crates/test_reader/data/documents

The documents of test_reader: the sample, those of document 01, refusals that the Rust does not have, and generated ones, good and
damaged. Lines are the Rust's, the numbers of damaged documents the generator's. README.md says what the three commands are.
"""
import pathlib
import subprocess
import sys

from vectors import Judges, entry

# names of generated documents end in their seed; the size is the generator's, small for most
GOOD = [(seed, 12) for seed in range(1, 121)] + [(seed, 30) for seed in range(121, 151)]
DAMAGED_SEEDS = range(1, 6)
DAMAGED_SIZE = 10
# the mistake of this one is an empty xml:lang, which is none: another seed takes its place
INSTEAD = {('10lang', 5): 6}

SAMPLE = pathlib.Path(__file__).parent.parent / 'samples'

RDF = 'xmlns:rdf="http://www.w3.org/1999/02/22-rdf-syntax-ns#"'
E = 'xmlns:e="http://e/"'
A = 'http://a/b/c/d;p?q'


def node(attributes, inner=''):
    return f'<e:P {RDF} {E} {attributes}>{inner}</e:P>'


# name, start base, XML, number; document 01's examples, P1 to P11
EXAMPLES = [
    ('P1-list', None, node('xml:base="http://e/d" rdf:about="p"',
                           '<e:by rdf:parseType="Collection"><rdf:Description rdf:about="#a"></rdf:Description>'
                           '<rdf:Description rdf:nodeID="k"></rdf:Description></e:by>'), 0),
    ('P2-empty-Collection', None, node('rdf:about="http://e/p"', '<e:by rdf:parseType="Collection"></e:by>'), 0),
    ('P3-empty-Collection-with-ID', 'http://e/d',
     node('rdf:about="http://e/p"', '<e:by rdf:ID="i" rdf:parseType="Collection"></e:by>'), 0),
    ('P4-blank-text', None, node('rdf:about="http://e/p"', '<e:q> \n\t </e:q>'), 0),
    ('P5-two-containers', None,
     f'<rdf:RDF {RDF} {E}><rdf:Seq><rdf:li>a</rdf:li><rdf:li>b</rdf:li></rdf:Seq>'
     '<rdf:Bag><rdf:li>c</rdf:li><rdf:li>d</rdf:li></rdf:Bag></rdf:RDF>', 0),
    ('P6-dot-dot', A, node('rdf:about="../g"'), 0),
    ('P7-empty-reference', A, node('rdf:about=""'), 0),
    ('P8-more-dots-than-segments', A, node('rdf:about="../../../g"'), 0),
    ('P9-x-default', None, node('', '<e:q xml:lang="x-default">t</e:q>'), 0),
    ('P10-en-and-hyphen', None, node('', '<e:q xml:lang="en-">t</e:q>'), 10),
    ('P11-seven-digits', None, node('rdf:nodeID="riog0000001"'), 0),
    ('P11-eight-digits', None, node('rdf:nodeID="riog00000001"'), 13),
    ('base-with-fragment', 'http://e/d#frag', node('rdf:ID="i"'), 0),
    ('base-of-the-inner-element', 'http://e/d', node('rdf:about="x"', '<e:q xml:base="http://f/" rdf:resource="y"/>'), 0),
    ('Collection-with-ID', 'http://e/d',
     node('', '<e:by rdf:ID="i" rdf:parseType="Collection"><e:A/><e:B rdf:about="b"/></e:by>'), 0),
]

# refused by intent where the Rust goes on; the lines are those of the events before, which the Rust gives for the second text
REFUSED = [
    ('label-with-a-full-stop', None, node('rdf:nodeID="a."'), 13, None),
    ('label-meets-a-generated-one', None, node('', '<e:q><e:A rdf:nodeID="riog00000001"/></e:q>'), 13, node('')),
    ('attribute-repeated-by-namespace', None, node('xmlns:f="http://e/" e:a="1" f:a="2"'), 6, None),
    ('declaration-of-no-namespace', None, node('xmlns:x=""'), 6, None),
    ('unknown-prefix-that-begins-xml', None, node('xmlx:a="b"'), 8, None),
    ('no-form', None, node('xml:base="a:b" rdf:about="/..//c"'), 11, None),
]


class Generator:
    def __init__(self, path):
        self.path = path

    def run(self, *arguments):
        run = subprocess.run(['python3', self.path, *map(str, arguments)], stdout=subprocess.PIPE, stderr=subprocess.PIPE,
                             check=True)
        told = dict(l.split(' ', 1) for l in run.stderr.decode().splitlines())
        return run.stdout, told.get('base'), int(told.get('expect', '0').split()[0])

    def kinds(self):
        return self.run('--list')[0].decode().split()


def main(oracle, converter, generator):
    judges, generator = Judges(oracle, converter), Generator(generator)

    def add(name, base, xml, number, known=None):
        """`known`: what the Rust is given in the document's place."""
        lines, error = judges.lines(xml if known is None else known, base)
        assert known is not None or (error is None) == (number == 0), (name, error)
        pyx, why = judges.pyx(xml, lax=number > 0)
        assert pyx is not None, (name, why)
        sys.stdout.write(entry(name, base, pyx, number, lines))

    sample = (SAMPLE / 'picture.xml').read_bytes()
    assert judges.pyx(sample)[0] == (SAMPLE / 'picture.pyx').read_text()
    assert judges.lines(sample)[0] == (SAMPLE / 'picture.nt').read_text()
    add('sample-picture', None, sample, 0)
    for name, base, xml, number in EXAMPLES:
        # a nodeID of this form is the one number of the examples that the Rust does not know
        add(name, base, xml.encode(), number, b'' if number == 13 else None)
    for name, base, xml, number, known in REFUSED:
        add(name, base, xml.encode(), number, (known or '').encode())
    for seed, size in GOOD:
        xml, base, number = generator.run('--seed', seed, '--size', size)
        add(f'good-{seed}', base, xml, number)
    for kind in generator.kinds():
        for seed in (INSTEAD.get((kind, seed), seed) for seed in DAMAGED_SEEDS):
            xml, base, number = generator.run('--seed', seed, '--damage', kind, '--size', DAMAGED_SIZE)
            # the Rust sees neither a second root nor an element that is left open
            silent = {'6root': xml[:xml.rfind(b'<')], '6open': xml}
            add(f'{kind}-{seed}', base, xml, number, silent.get(kind))


if __name__ == '__main__':
    if len(sys.argv) != 4:
        sys.exit(__doc__)
    main(*sys.argv[1:])
