#!/bin/sh
# Builds the host programs over libreader_host.a and runs their tests. Needs the Rattle kit, and a C compiler for x86-64: gcc, or on
# another processor x86_64-linux-gnu-gcc, whose programs run under the kit's emulator. CC names another compiler.
# The last line says what passed; the status is 1 where something failed.
set -eu
cd "$(dirname "$0")/.."
made=target/host
mkdir -p "$made" target/staticlib
(cd crates/reader_host_c && rt lib)
cp crates/reader_host_c/out/libreader_host_c.a target/staticlib/libreader_host.a

if [ "$(uname -m)" = x86_64 ]; then
    cc=${CC:-gcc}
    run() { "$@"; }
else
    # linked whole, so that the emulator needs no library of the other processor
    cc="${CC:-x86_64-linux-gnu-gcc} -static"
    emulator=$(dirname "$(rt doc)")/../on/$(uname -m)/toolchain/bin/qemu-x86_64
    run() { "$emulator" "$@"; }
fi
for program in test pyx2nt; do
    $cc -std=c11 -O2 -Wall -Wextra -Wpedantic -Werror -o "$made/$program" "host/$program.c" target/staticlib/libreader_host.a
done

failed=0
passed=0
# same WHAT STATUS FILE..: the program on these files ends with this status, and writes what stands in $made/expected
same() {
    what=$1 status=$2
    shift 2
    got=0
    run "$made/pyx2nt" "$@" >"$made/got" || got=$?
    if [ "$got" -eq "$status" ] && cmp -s "$made/got" "$made/expected"; then
        passed=$((passed + 1))
    else
        failed=$((failed + 1))
        echo "FAILED: pyx2nt, $what"
    fi
}

# document 01, "One list in full"
cat >"$made/list.pyx" <<'END'
(e:P
Axmlns:rdf http://www.w3.org/1999/02/22-rdf-syntax-ns#
Axmlns:e http://e/
Axml:base http://e/d
Ardf:about p
(e:by
Ardf:parseType Collection
(rdf:Description
Ardf:about #a
)rdf:Description
(rdf:Description
Ardf:nodeID k
)rdf:Description
)e:by
)e:P
END
sed 's|R\([a-z]*>\)|http://www.w3.org/1999/02/22-rdf-syntax-ns#\1|g' >"$made/list.nt" <<'END'
<http://e/p> <Rtype> <http://e/P> .
_:riog00000004 <Rfirst> _:k .
_:riog00000004 <Rrest> <Rnil> .
_:riog00000005 <Rfirst> <http://e/d#a> .
_:riog00000005 <Rrest> _:riog00000004 .
<http://e/p> <http://e/by> _:riog00000005 .
END
cp "$made/list.nt" "$made/expected"
same 'a list' 0 "$made/list.pyx"
cat "$made/list.nt" "$made/list.nt" >"$made/expected"
same 'two documents' 0 "$made/list.pyx" "$made/list.pyx"

# refused at finish, which is one more event; at its last event; and at an event that is no PYX
sed '$d' "$made/list.pyx" >"$made/open.pyx"
(cat "$made/list.nt"; echo '# refused 6 at event 8') >"$made/expected"
same 'an open element' 1 "$made/open.pyx"
(sed '$d' "$made/list.pyx"; echo ')e:Q') >"$made/wrong.pyx"
same 'a wrong end tag' 1 "$made/wrong.pyx"
(echo '# refused 5 at event 1'; cat "$made/list.nt") >"$made/expected"
same 'no PYX, then a list' 1 "$made/list.nt" "$made/list.pyx"
echo '# refused 6 at event 1' >"$made/expected"
same 'nothing' 1 /dev/null

# a document longer than the input buffer
awk 'BEGIN {
    print "(e:P\nAxmlns:e http://e/\nAxmlns:rdf http://www.w3.org/1999/02/22-rdf-syntax-ns#\nArdf:about http://e/p"
    for (i = 0; i < 10000; i++) print "(e:n\n-" i "\n)e:n"
    print ")e:P"
}' >"$made/long.pyx"
awk 'BEGIN {
    print "<http://e/p> <http://www.w3.org/1999/02/22-rdf-syntax-ns#type> <http://e/P> ."
    for (i = 0; i < 10000; i++) print "<http://e/p> <http://e/n> \"" i "\" ."
}' >"$made/expected"
same 'a long document' 0 "$made/long.pyx"

# an event that is too long, and one whose lines are
awk 'BEGIN { printf "?"; for (i = 0; i < 200000; i++) printf "x"; print "" }' >"$made/line.pyx"
echo '# refused 7 at event 1' >"$made/expected"
same 'a long line' 1 "$made/line.pyx"
awk 'BEGIN {
    print "(e:P\nAxmlns:e http://e/\nAxmlns:rdf http://www.w3.org/1999/02/22-rdf-syntax-ns#\nArdf:about http://e/p"
    print "(e:by\nArdf:parseType Collection"
    for (i = 0; i < 500; i++) print "(rdf:Description\nArdf:nodeID k" i "\n)rdf:Description"
    print ")e:by\n)e:P"
}' >"$made/children.pyx"
(head -1 "$made/list.nt"; echo '# refused 2 at event 1003') >"$made/expected"
same 'many lines' 1 "$made/children.pyx"

if run "$made/test" >"$made/test.out"; then passed=$((passed + 1)); else failed=$((failed + 1)); fi
cat "$made/test.out"
echo "host: $passed passed, $failed failed"
[ "$failed" -eq 0 ]
