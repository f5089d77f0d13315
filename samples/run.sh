#!/bin/sh
# run.sh [FILE]: proves the reader and pyx2nt, and runs it on a PYX file, the sample where none is named. The program is for x86-64.
set -eu
file=$(realpath "${1:-$(dirname "$0")/picture.pyx}")
cd "$(dirname "$0")/../crates/pyx2nt"
exec rt run <"$file"
