#!/bin/sh
# Holds the library to the Rust baseline, then times both.
#   bench/run.sh SOURCE [TURNS]
# SOURCE: the folder with the Rust's cholesky.rs (one file whose name has 'cholesky.rs' in it). TURNS: how often each is timed, 31 if
# not given; or 'growth': how much memory is lent, and nothing is timed. Needs rt, rustc and python3; a C compiler, if there is one, tries the
# header too, and with it CSparse and CHOLMOD (libsuitesparse-dev) are timed beside. All but rt's own out/ folders is made in a temporary
# folder, which is removed.
set -eu
if [ $# -lt 1 ] || [ $# -gt 2 ]; then
    sed -n '2,7s/^# \{0,1\}//p' "$0"
    exit 2
fi
source=$1
turns=${2:-31}
here=$(cd "$(dirname "$0")/.." && pwd)
if [ "$(uname -m)" != x86_64 ]; then
    echo "skipped on $(uname -m): the comparison and the timing. Rattle compiles for x86-64 alone, so its library links into no program of this machine."
    exit 0
fi
count=$(find "$source" -maxdepth 1 -type f -name '*cholesky.rs*' | wc -l)
if [ "$count" -ne 1 ]; then
    echo "$source has $count files whose name has 'cholesky.rs' in it, and one is wanted" >&2
    exit 2
fi
file=$(find "$source" -maxdepth 1 -type f -name '*cholesky.rs*')
file=$(cd "$(dirname "$file")" && pwd)/$(basename "$file")
build=$(mktemp -d)
trap 'rm -rf "$build"' EXIT
trap 'exit 1' HUP INT TERM

cd "$here"
(cd crates/exports && rt lib) > "$build/log" 2>&1 || { cat "$build/log" >&2; exit 1; }
cp crates/exports/out/libexports.a bindings/nosebagged.rs bindings/compare.rs bench/engine.rs bench/speed.rs bench/peers.c "$build"
python3 bench/baseline.py "$file" "$build/cholesky.rs"
if command -v cc > /dev/null; then
    cc -Wall -Wextra -std=c99 -I bindings -o "$build/check" bindings/check.c "$build/libexports.a"
    "$build/check"
else
    echo "C: skipped, there is no cc"
fi
cd "$build"

# peer NAME FLAG HEADER LIBRARY: whether a program with it compiles and links
with='' flags='' link=''
peer() {
    printf '#include <suitesparse/%s>\nint main(void) { return 0; }\n' "$3" > probe.c
    if command -v cc > /dev/null && cc -o probe probe.c "-l$4" 2> /dev/null; then
        flags="$flags -D$2" with="$with --cfg $(echo "$2" | tr '[:upper:]' '[:lower:]')" link="$link -l $4"
    else
        echo "$1: skipped, its header or library (libsuitesparse-dev) or a C compiler is not there"
    fi
}
peer CSparse CSPARSE cs.h cxsparse
peer CHOLMOD CHOLMOD cholmod.h cholmod
if [ -n "$flags" ]; then
    # shellcheck disable=SC2086
    cc -Wall -Wextra -O2 $flags -c -o peers.o peers.c
    link="-C link-arg=peers.o $link"
fi

rust='rustc --edition 2024 -C opt-level=3 -A warnings'
$rust --crate-type rlib --crate-name engine_any engine.rs
$rust -C target-cpu=native --crate-type rlib --crate-name engine_own engine.rs
$rust -L . -l static=exports -o compare compare.rs
# shellcheck disable=SC2086
$rust -L . -l static=exports --extern engine_any=libengine_any.rlib --extern engine_own=libengine_own.rlib $with $link -o speed speed.rs
./compare
echo "load before the timing: $(cut -d ' ' -f 1-3 /proc/loadavg), processors: $(nproc)"
OMP_NUM_THREADS=1 OPENBLAS_NUM_THREADS=1 ./speed "$turns"
echo "load after it: $(cut -d ' ' -f 1-3 /proc/loadavg)"
