#!/bin/sh
# Compiles host.c against LIBRARY (libhost.a), runs it on some books and compares what it prints with host.expected.
set -eu
if [ $# -ne 1 ]; then
    echo "usage: test.sh LIBRARY" >&2
    exit 2
fi
library=$1
here=$(dirname "$0")
books=$here/../crates/books/data
work=$(mktemp -d)
trap 'rm -rf "$work"' EXIT

cc -std=c11 -O2 -Wall -Wextra -Werror -I "$here/../include" "$here/host.c" "$library" -o "$work/host"
head -c 15 "$books/m03.book" >"$work/short.book"
head -c 55 "$books/m03.book" >"$work/cut.book"

# run BOOK BUDGET
run() {
    echo "-- $(basename "$1" .book) $2"
    "$work/host" "$1" "$2"
}
{
    run "$books/m03.book" 1000000
    run "$books/m04.book" 1
    run "$books/m04.book" 2
    run "$books/four-clauses.book" 3
    run "$books/f9.book" 1000000
    run "$work/short.book" 1000000
    run "$work/cut.book" 1000000
} >"$work/printed"
diff "$here/host.expected" "$work/printed"
