#!/bin/sh
# bench/run.sh JUDGE [SIZES]: builds pyx2nt and the host in C, and prints what they and other readers cost (bench.py says what a figure includes).
# JUDGE is a folder with gen_rdfxml.py (writes the benchmark document), xml2pyx.py (turns XML into PYX) and insns.sh (counts the
# instructions of a program). RUST names rio2nt and RAPPER rapper; one that is not named is left out. SIZES are megabytes, 1,4 where none are given.
set -eu
cd "$(dirname "$0")/.."
judge=$1
(cd crates/pyx2nt && rt run </dev/null) >&2 || true # it is built, and refuses an empty document
sh host/run.sh >&2
exec python3 bench/bench.py --document "$judge/gen_rdfxml.py" --converter "$judge/xml2pyx.py" --count "sh $judge/insns.sh" \
    --pyx2nt crates/pyx2nt/out/pyx2nt --host target/host/pyx2nt ${RUST:+--rust "$RUST"} ${RAPPER:+--rapper "$RAPPER"} --sizes "${2:-1,4}"
