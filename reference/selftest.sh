#!/bin/sh
# Builds the reference outside the tree, runs the examples of docs/ through it, and checks the program itself:
# standard output, standard error and exit status of a statement and of a fault.
set -eu
here=$(cd "$(dirname "$0")" && pwd)
out=$(mktemp -d)
trap 'rm -rf "$out"' EXIT
rustc -O --edition 2024 -D warnings "$here/selftest.rs" -o "$out/selftest"
rustc -O --edition 2024 -D warnings "$here/main.rs" -o "$out/reference"
"$out/selftest" "$here/../docs/FILE_FORMAT.md"

# expect STATUS PRINT: settles the file on standard input and compares.
expect() {
    status=0
    "$out/reference" >"$out/print" 2>"$out/error" || status=$?
    printf "$2" >"$out/expected"
    cmp "$out/print" "$out/expected"
    [ "$status" = "$1" ] || { echo "exit status $status, not $1"; exit 1; }
    sentences=$(wc -l <"$out/error")
    [ "$sentences" -eq "$1" ] || { echo "$sentences sentences on standard error, not $1"; exit 1; }
}
printf 'hour=7\nrule=running\n' | expect 0 'hour=7\nprice=0\nsum=0\n'
printf 'hour=7\nrule=' | expect 1 'fault=2,F,19,6\n'
head -c 32769 /dev/zero | expect 1 'fault=0,F,19,0\n'
head -c 900000 /dev/zero | expect 1 'fault=0,F,19,0\n'
echo "the program: 4 passed, 0 failed"
