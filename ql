#!/bin/sh
# Runs the program with the caller's words and standard input. Proves and builds it first, where it is not there or a
# source changed; the output of that goes to standard error.
set -u
top=$(CDPATH='' cd -- "$(dirname -- "$0")" && pwd) || exit 125
program=$top/crates/ql/out/ql

is_stale() {
    [ ! -x "$program" ] || [ -n "$(find "$top"/crates.txt "$top"/crates/*/src "$top"/crates/*/specs "$top"/crates/*/proofs \
        -type f -newer "$program" 2>/dev/null | head -n 1)" ]
}

if is_stale; then
    (cd "$top/crates/ql" && rt run </dev/null >&2 && touch out/ql) || {
        echo "ql: not built" >&2
        exit 125
    }
fi
exec "$program" "$@"
