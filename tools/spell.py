#!/usr/bin/env python3
"""spell.py: brings the names of the repository's own definitions and lemmas to today's spelling, once, behind port.py.

Words are in snake case: `sameAbout` is `same_about`. A dash stays where it joins the names of two definitions, as in `length-part`; a plain
word hangs on by `_`, as in `alike_never`. Types, modules, constants and the names of Rust's things are left as they are. Every token of
.antt files, the clauses and imports of .rt files, the edits, and what stands in backticks in pages are turned by one table, so that a name
is spelled alike wherever it stands; a name whose new spelling another thing has already keeps apart by OTHER.
"""
import glob
import os
import re
import sys

ROOT = os.path.dirname(os.path.dirname(os.path.abspath(__file__)))
LETTER = r"[^\s(){}\[\].,;:`\"«»⟨⟩⟦⟧]"
TOKEN = re.compile(LETTER + "+")
HEAD = re.compile(r"^(?:pattern )?(?:unfoldable |abbrev )?(?:pub )?(?:data |record )?(?:pub )?(" + LETTER + r"+)((?: ?\{[^}]*\}| ?\([^)]*\))*)\s*:(?: |$)")
PART = re.compile(r"^\s+(?:pub )?((?:" + LETTER + r"+ )*" + LETTER + r"+)((?: ?\{[^}]*\}| ?\([^)]*\))*)\s*:(?: |$)")
DATA = re.compile(r"^(?:pub )?(?:abbrev )?(?:pub )?(data|record) ")

# Where the plain rule gives a name that something else has already: a definition keeps it, and a lemma ends in `_lem`. The renderings of
# the Rust and of section 7 say whose word it is. A crate's own row stands over the common one.
OTHER = {
    "in-table": "in_table_lem", "base-in": "base_in_lem", "is-literal": "is_literal_lem", "is-space": "is_space_lem",
    "text-of": "text_of_lem", "attributes-of": "attributes_of_rust", "is-name-char": "is_name_char_rust", "no-parse-type": "no_parse_type_lem", "upTo-from": "up_to_from_lem", "takeAll": "take_all_subjects",
    "is-nc-name": "is_nc_name_rust", "no-attributes": "no_attributes_rust", "object-term": "object_term_rust",
    "parse-type-of": "parse_type_of_rust", "property-iri": "property_iri_rust", "read-attribute": "read_attribute_rust",
    "read-tag": "read_tag_rust", "parse-type": "parse_type_attr",
    "in-node": "in_node_lem", "in-rdf": "in_rdf_lem", "iri-of": "iri_of_identifier", "is-reserved": "is_reserved_term",
    "node-subject": "node-subject", "without-last": "without_last_lem", "has-name": "has_name_lem", "count-li": "count_li_rust",
    "language-in": "language_under", "place-in": "place_under", "meaning-of": "meaning_of_attribute", "property-of": "property_of_subject",
}
OTHER_IN = {
    "theorems": {"object-term": "object_term_lem", "read-tag": "read_tag_lem", "place-in": "place_in_lem", "object_of": "object_of_lem"},
    "section7": {"is-literal": "is_literal_type", "is-space": "is_space_text", "text-of": "text_of_content", "in-node": "in_node_content", "in-rdf": "in_rdf_context"},
    "rio": {"node-subject": "node_subject_rust", "without-last": "without_last_rust",
            "object_of": "object_of_rust", "text_in": "text_in_rust", "is_name": "is_name_rust"},
}
# Plain words of a name, though some definition is named by them alone.
PLAIN = set("of all is on in at as to by top then next read start before behind after known kept first further front back out own".split())
# Two names that are never in one file: a field of the Rust's rendering, and a word of section 7 or of document 01.
APART = {"about_attr", "datatype_attr", "id_attr", "node_id_attr", "resource_attr", "parse_type_attr", "is_name", "object_of", "text_in", "name_size"}
# Lemmas that had this spelling already, and a definition has it now.
LEMMAS = {n: n + "_lem" for n in ("all_known", "all_short", "goes_on", "held_with", "in_scope", "left_in", "load_row", "of_length",
                                  "on_value", "one_more", "or_right", "same_kind", "same_bytes", "front_of", "held_by",
                                  "is_known", "node_lines", "place_at", "top_frame", "is_open", "too_long")}

def own():
    """The names that specs/ and the lemma files declare, with the sort of each: 'word' for what computes, 'lemma', 'part' of a record or data."""
    found = {}
    files = glob.glob(ROOT + "/crates/*/specs/**/*.antt", recursive=True) + glob.glob(ROOT + "/crates/*/proofs/**/*.antt", recursive=True)
    for path in files:
        if "/out/" in path:
            continue
        function = os.path.basename(path) in ("Proof.antt", "Statement.antt")
        inside = section = False
        for line in open(path, encoding="utf-8"):
            if DATA.match(line) or section and DATA.match(line.strip()):
                inside = True
            elif line.startswith("module "):
                inside, section = False, True
            elif line.strip() and not line[0].isspace():
                inside = section = False
            if m := HEAD.match(line) or section and HEAD.match(line.strip()):
                name = m[1]
                if function and re.search(r":\s*(tie\.|\{M : Type 1\})", line):
                    continue
                sort = "word" if re.match(r"^(pattern )?(unfoldable |abbrev )", line.strip()) else "lemma"
                if not (function and name in found):
                    found.setdefault(name, sort)
                    if sort == "word":
                        found[name] = sort
            elif inside and (m := PART.match(line)):
                for name in m[1].split():
                    found.setdefault(name, "part")
    return found


def theirs():
    """What is imported from a library: these names stay."""
    names = set()
    for path in glob.glob(ROOT + "/crates/**/*.antt", recursive=True) + glob.glob(ROOT + "/crates/*/src/**/*.rt", recursive=True):
        if "/out/" in path:
            continue
        for m in re.finditer(r"^(?:ghost )?use ([\w.·+-]+)\.\{([^}]*)\}", open(path, encoding="utf-8").read(), re.M):
            if re.match(r"Rattle\.(?!std\b|core\b|io\b|libc\b|os\b|check\b)", m[1]):
                continue
            names |= {n.split(" as ")[0].strip() for n in m[2].split(",")}
    return names


KEPT = re.compile(r"(?<![\w.'-])(?:" + "|".join(LEMMAS) + r")(?![\w'-])|(?<=[A-Z]\.)(?:" + "|".join(LEMMAS) + r")(?![\w'-])")


def snake(word):
    word = re.sub(r"(?<=[a-z0-9])(?=[A-Z])", "_", word)
    word = re.sub(r"(?<=[A-Z])(?=[A-Z][a-z])", "_", word)
    return word.lower() if word[:1].islower() else word


def spelled(name, words, lemma):
    """The name in today's spelling. Only a lemma's name joins others by a dash."""
    if name in OTHER:
        return OTHER[name]
    if re.match(r"(RDF|RESERVED)-", name):
        return name.replace("-", "_")
    if name[:1].isupper() or "◌" in name:
        return name
    parts = name.split("-")
    if any(p == "" for p in parts):
        return name
    out = snake(parts[0])
    for before, part in zip(parts, parts[1:]):
        out += ("-" if lemma and before in words and part in words else "_") + snake(part)
    return out


def table():
    """What every name is turned to, the names that are declared, and those of the libraries."""
    names, lib = own(), theirs()
    words = {n for n, s in names.items() if s == "word" and len(n) > 1 and n not in PLAIN} | {"length", "take", "drop", "set", "append", "map", "get_or", "++", "+", "sum", "replicate"}
    turned = {}
    for n in sorted(names):
        if n in lib or not (re.search(r"[a-z0-9][A-Z]", n) or "-" in n or "′" in n):
            continue
        t = spelled(n.replace("′", "'"), words, names[n] == "lemma")
        if t != n:
            turned[n] = t
    back = {}
    for n, t in turned.items():
        back.setdefault(t, []).append(n)
    for t, ns in back.items():
        if len(ns) > 1 or t in names and t not in turned and t not in LEMMAS:
            for n in ns:
                if names[n] == "lemma" and n not in OTHER:
                    turned[n] = t + "_lem"
    return turned, names, lib


# Document 01's choice by a test is `when .. then .. else`: `if` is the library's own.
CHOICE = {"if": "when", "if◌then◌else◌": "when◌then◌else◌"}


def antt(text, turned):
    turned = turned | CHOICE
    text = KEPT.sub(lambda m: LEMMAS[m[0]], text)
    out = []
    for line in text.split("\n"):
        code, mark, comment = line.partition("-- ") if not re.search(r'"[^"]*-- ', line) else (line, "", "")
        if line.startswith("--"):
            code, mark, comment = "", "", line
        pieces = re.split(r'("(?:[^"\\]|\\.)*")', code)
        code = "".join(p if i % 2 else TOKEN.sub(lambda m: turned.get(m[0], m[0]), p) for i, p in enumerate(pieces))
        out.append(code + mark + ticked(comment, turned))
    return "\n".join(out)


def ticked(text, turned):
    return re.sub(r"`([^`\n]+)`", lambda m: "`" + TOKEN.sub(lambda t: turned.get(t[0], t[0]), m[1]) + "`", text)


def rust(text, turned):
    out = []
    for line in text.split("\n"):
        code, mark, comment = line.partition("// ") if '"' not in line else (line, "", "")
        pieces = re.split(r'("(?:[^"\\]|\\.)*")', code)
        code = "".join(p if i % 2 else TOKEN.sub(lambda m: turned.get(m[0], m[0]), p) for i, p in enumerate(pieces))
        out.append(code + mark + ticked(comment, turned))
    return "\n".join(out)


def edit(text, turned):
    """An edit of code stays as it is."""
    if re.search(r"(?m)^file: src", text):
        return ticked(text, turned)
    out = []
    for line in text.split("\n"):
        if m := re.match(r"^(old|new): (.*)$", line):
            out.append(m[1] + ": " + antt(m[2], turned))
        else:
            out.append(ticked(line, turned))
    return "\n".join(out)


def main(argv):
    turned, names, lib = table()
    back = {}
    for n, t in turned.items():
        if t not in APART:
            back.setdefault(t, []).append(n)
    rust_names = set()
    for path in glob.glob(ROOT + "/crates/*/src/**/*.rt", recursive=True):
        text = re.sub(r"//.*", "", open(path, encoding="utf-8").read())
        text = re.sub(r"ghost use [^;]*;", "", text)
        text = re.sub(r"(requires|ensures|ghost)\b[^{\n]*\{[^\n]*\}", "", text)
        rust_names |= set(re.findall(r"\b[a-z_][a-z0-9_]*\b", text))
    together = [(t, ns) for t, ns in sorted(back.items()) if len(ns) > 1 or t in names and t not in turned and t not in LEMMAS or t in lib]
    rusty = [(t, ns) for t, ns in sorted(back.items()) if t in rust_names]
    if "--look" in argv:
        print(len(turned), "names turned")
        print("fall together:")
        for t, ns in together:
            print("  ", t, ns, "own" if t in names else "", "lib" if t in lib else "")
        print("names of Rust's things too:")
        for t, ns in rusty:
            print("  ", t, ns)
        return 0
    if together:
        sys.exit("names fall together: " + ", ".join(t for t, _ in together))
    for path in glob.glob(ROOT + "/crates/**/*", recursive=True) + glob.glob(ROOT + "/**/*.md", recursive=True) + glob.glob(ROOT + "/tests/definitions/*"):
        if "/out/" in path or not os.path.isfile(path):
            continue
        how = {".antt": antt, ".rt": rust, ".edit": edit}.get(os.path.splitext(path)[1])
        if path.endswith(".md"):
            how = ticked
        if "/tests/definitions/" in path:
            how = edit
        if how is None:
            continue
        crate = os.path.relpath(path, ROOT).split("/")[1:2]
        here = turned | OTHER_IN.get(crate[0] if "/crates/" in path else "", {})
        old = open(path, encoding="utf-8").read()
        new = how(old, here)
        if new != old:
            open(path, "w", encoding="utf-8").write(new)
    print(f"spell: {len(turned)} names turned")
    return 0


if __name__ == "__main__":
    sys.exit(main(sys.argv[1:]))
