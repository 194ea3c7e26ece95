#!/bin/sh
# Runs a script: ./jl WORDS < script
# The proved program is taken where there is one of these sources, else the unproved one that is kept. tools/program.py makes it where there is
# none, and answers words that are no command at once.
set -u
# The status where this script or the kit fails. No command ends with it.
failed=70
self=$0
while [ -L "$self" ]; do
    to=$(readlink "$self") || exit "$failed"
    case $to in
        /*) self=$to ;;
        *) self=$(dirname -- "$self")/$to ;;
    esac
done
here=$(CDPATH='' cd -- "$(dirname -- "$self")" && pwd) || exit "$failed"
proved=$here/crates/jl_main/out/jl_main
unproved=$here/out/jl

# Whether a program is there, and neither a source nor the other word, a file, is newer.
is_newest() {
    [ -x "$1" ] || return 1
    newer=$(find "$here"/crates/*/src "$here"/crates/*/specs "$here"/crates/*/proofs "$here/crates.txt" "$2" -newer "$1" 2>/dev/null | head -n 1)
    [ -z "$newer" ]
}

# Where nobody hands in a script, one may wonder what the program waits for.
case "${1-} ${2---}" in
    "run --"* | "trace --"* | "check --" | "replay --")
        [ ! -t 0 ] || echo "jl: reads the script from the terminal, up to Ctrl-D; ./jl $1 < FILE reads one from a file" >&2
        ;;
esac
if [ "${1-}" != --version ] && is_newest "$proved" "$proved"; then
    echo "jl: the proved program" >&2
    exec "$proved" "$@"
fi
# It is newer than a proved program only where tools/program.py found that one to be of other sources.
if [ "${1-}" != --version ] && is_newest "$unproved" "$proved"; then
    echo "jl: the program without proofs (./build makes the proved one)" >&2
    exec "$unproved" "$@"
fi
command -v python3 > /dev/null || { echo "jl: there is no python3" >&2; exit "$failed"; }
exec python3 "$here/tools/program.py" "$@"
