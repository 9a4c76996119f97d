#!/bin/sh
# Proves and builds what C and the scripts beside the crates use, each from the top of a checkout:
#   build.sh program NAME    the program crates/NAME, as target/bin/NAME
#   build.sh library NAME    the library crates/NAME for C callers, from the crate NAME_c that exports it, as target/staticlib/libNAME.a
set -eu
if [ $# -ne 2 ]; then
    echo "usage: build.sh program|library NAME" >&2
    exit 2
fi
cd "$(dirname "$0")/.."
name=$2
case $1 in
program)
    # `rt run` builds and runs; with an empty input and no arguments each program here ends at once and without an error
    (cd "crates/$name" && rt run </dev/null >/dev/null)
    mkdir -p target/bin
    cp "crates/$name/out/$name" "target/bin/$name"
    ;;
library)
    (cd "crates/${name}_c" && rt lib)
    mkdir -p target/staticlib
    cp "crates/${name}_c/out/lib${name}_c.a" "target/staticlib/lib$name.a"
    ;;
*)
    echo "usage: build.sh program|library NAME" >&2
    exit 2
    ;;
esac
