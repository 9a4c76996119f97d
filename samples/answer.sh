#!/bin/sh
# The answer to a text of rules, from a fresh checkout: proves and builds the program if it isn't there yet, makes the text's book and checks it.
# With `picture` after it, a Graphviz picture of the structure instead.
set -eu
if [ $# -lt 1 ] || [ $# -gt 2 ]; then
    echo "usage: answer.sh FILE.rules [picture]" >&2
    exit 2
fi
top=$(cd "$(dirname "$0")/.." && pwd)
ruletext=$top/target/rust/release/ruletext
if [ ! -x "$top/target/bin/rulecheck" ]; then
    echo "proving and building the program, some minutes .." >&2
    "$top/tools/build.sh" program rulecheck >"${TMPDIR:-/tmp}/rulecheck.log" 2>&1 || {
        tail "${TMPDIR:-/tmp}/rulecheck.log" >&2
        exit 1
    }
fi
if [ ! -x "$ruletext" ]; then
    CARGO_TARGET_DIR=$top/target/rust cargo build --quiet --release --offline --manifest-path "$top/tools/ruletext/Cargo.toml"
fi
if [ "${2:-}" = picture ]; then
    "$ruletext" book <"$1" | "$top/target/bin/rulecheck" | "$ruletext" graph "$1"
else
    "$ruletext" book <"$1" | "$top/target/bin/rulecheck"
fi
