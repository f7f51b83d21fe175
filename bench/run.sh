#!/usr/bin/env bash
# Compares the proved library with a transmitter written by hand in C, and with lwIP, and prints one table (bench.c).
#
#     bash bench/run.sh [ROUNDS | --few]
#     bash bench/run.sh --duties [ROUNDS]
#     bash bench/run.sh --against OLD.a [ROUNDS]
#
# It proves and builds the library where it is missing, as in a fresh clone. With --few, as in the test command, it
# measures each work once, with and without --duties, which shows that the bench works and that all make the same frames;
# its last line counts; without lwIP that is skipped. With --duties the transmitter in C has the library's duties too
# (hand.h): what is left is the cost of how the library does them. With --against it compares the library with an older
# one, in turn.
set -eu
old=
flags=()
if [ "${1-}" = --against ]; then
    old=$(realpath "$2")
    shift 2
elif [ "${1-}" = --duties ]; then
    flags=(-DDUTIES)
    shift
fi
cd "$(dirname "$0")"
kit=$(dirname "$(rt doc)")
room=$(mktemp -d)
trap 'rm -r "$room"' EXIT
library=../crates/afdx/out/libafdx.a
[ -f "$library" ] || (cd ../crates/afdx && rt lib)
lwip=()
if [ -z "$old" ] && echo '#include <lwip/udp.h>' | ${CC:-cc} -I/usr/include/lwip -E - >"$room/out" 2>&1; then
    lwip=(-DWITH_LWIP -isystem /usr/include/lwip lwip.c -llwip)
fi

# Builds the driver over a library.
build() {
    ${CC:-cc} -O3 -std=gnu11 -Wall -Wextra -Werror -Wpedantic -Wconversion "${flags[@]}" -I../crates/afdx bench.c sides.c hand.c "$1" \
        "$kit/c/liblibc_c.a" "${lwip[@]}" -lpthread -o "$2"
}

build "$library" "$room/bench"
if [ -n "$old" ]; then
    build "$old" "$room/old"
    "$room/bench" "${1-11}" "$room/old"
elif [ "${1-}" = --few ]; then
    "$room/bench" 1
    flags=(-DDUTIES)
    build "$library" "$room/duties"
    "$room/duties" 1
    more=
    [ "${#lwip[@]}" -gt 0 ] || { echo "no lwIP: skipped" && more=", 1 skipped"; }
    echo "2 passed, 0 failed$more"
else
    "$room/bench" "${1-11}"
fi
