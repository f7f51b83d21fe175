#!/usr/bin/env bash
# Builds the example with the library that is installed around it, or under a prefix. In the tree of the library it
# proves and builds that first, crates/afdx/out/libafdx.a. CC and CFLAGS are heeded.
#
#     bash examples/c/build.sh [PREFIX]
set -eu
here=$(cd "$(dirname "$0")" && pwd)
prefix=${1-$here/../../../..}
if [ $# -eq 1 ] || [ -e "$prefix/lib/libafdx.a" ]; then
    library=("-I$prefix/include" "$prefix/lib/libafdx.a")
else
    root=$here/../..
    (cd "$root/crates/afdx" && rt lib)
    # the kit's part of the C library, which allocates by malloc
    library=("-I$root/crates/afdx" "$root/crates/afdx/out/libafdx.a" "$(dirname "$(rt doc)")/c/liblibc_c.a")
fi
${CC:-cc} ${CFLAGS:--O2} -std=gnu11 -Wall -Wextra -Werror -Wpedantic -Wconversion "$here/example.c" "${library[@]}" \
    -lpthread -o "$here/example"
