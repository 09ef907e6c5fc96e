#!/bin/sh
# What a contributor runs, from anywhere:
#   ./do check [CRATE..]    prove these crates, or those whose files differ from origin/main, and the crates below them
#   ./do fast               what needs no proof: 5-10 minutes
#   ./do gate               all: what CI runs (./test)
#   ./do fmt                lay out each crate
#   ./do docs               write what is generated: the picture of the crates, the index, the counts of words
set -eu
top=$(cd "$(dirname "$0")" && pwd)
cd "$top"

changed() {
    {
        git diff --name-only origin/main -- crates
        git ls-files --others --exclude-standard crates
    } | cut -d / -f 2 | sort -u
}

case ${1-} in
check)
    shift
    [ $# -gt 0 ] || set -- $(changed)
    for crate; do (cd "crates/$crate" && echo "$crate:" && rt check); done
    ;;
fast) exec ./test --fast ;;
gate) exec ./test ;;
fmt) for crate in crates/*/; do (cd "$crate" && rt fmt); done ;;
docs)
    tools/house
    tools/words
    tools/worked
    [ ! -x tools/claims ] || tools/claims
    ;;
*)
    sed -n '2,/^set/{/^set/d;s/^# \{0,1\}//;p;}' "$0" >&2
    exit 64
    ;;
esac
