#!/usr/bin/env bash
# Makes the archives target/staticlib/libNAME.a that are missing or older than the sources: evidence/archives.sh [NAME..], by default
# of tazbilk, the unit, and of probe. ./compare and ./bench run it. It speaks on standard error.
set -u
cd "$(dirname "$0")/.." || exit 1

# fresh NAME: whether the archive of a crate is there and newer than every source; what rt makes, in crates/*/out, is none.
fresh() {
    local archive=target/staticlib/lib$1.a
    [ -e "$archive" ] && [ -z "$(find crates/*/* crates.txt -path 'crates/*/out' -prune -o -newer "$archive" -print -quit)" ]
}

# made NAME: makes the archive of a crate, by the static library that exports its calls, unless it is fresh.
made() {
    local archive=target/staticlib/lib$1.a from=crates/$1_c log=target/staticlib-$1.log
    if fresh "$1"; then return 0; fi
    if ! command -v rt >/dev/null 2>&1; then
        echo "missing: rt, the command of the Rattle kit (proves the unit and makes $archive)" >&2
        return 1
    fi
    mkdir -p target/staticlib
    echo "== prove $1, with the crates below that are not proved yet, and make $archive (docs/GATE.md has how long each takes)" >&2
    if ! (cd "$from" && rt lib) >"$log" 2>&1 || ! cp "$from/out/lib$1_c.a" "$archive.new" || ! mv "$archive.new" "$archive"; then
        echo "the archive of $1 could not be proved and made; see $log" >&2
        return 1
    fi
}

if [ $# = 0 ]; then set -- tazbilk probe; fi
for name in "$@"; do
    if [ ! -d "crates/${name}_c" ]; then
        echo "no crate has an archive called $name: evidence/archives.sh [NAME..], where NAME is tazbilk or probe" >&2
        exit 1
    fi
    made "$name" || exit 1
done
