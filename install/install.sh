#!/usr/bin/env bash
# Installs the library, the program and examples under a prefix.
set -eu
usage() {
    cat <<'EOF'
Installs the AFDX end system: the library for C, C++, CMake and Python, the programs afdx_bench and afdx_play, and
examples.

    bash install/install.sh [--built] PREFIX
    bash install/install.sh [--built] [--target TARGET] [--cpu CPU] PREFIX
    bash install/install.sh --help

It takes a C compiler and its binutils (CC and AR are heeded), and the Rattle toolchain with rt on the PATH. First it
proves and builds the library and the program, if one is missing or a source is newer, which may take an hour. With
--built it installs what is built. What it installs is for x86_64-unknown-linux-gnu: Linux with glibc on a processor
with the instructions of x86-64-v2. It needs nothing of this tree or the toolchain, and no installed file names the
prefix, so the folder may be moved. With Python 3 it also packs a wheel for pip, PREFIX/share/afdx/afdx-*.whl.

For another TARGET, aarch64-unknown-linux-gnu, or CPU, x86-64, x86-64-v3, generic or neoverse-v2, it installs the headers, the
archives libafdx.a and libafdx_core.a, and the example bare. A compiler and binutils for that target have to be there: those
whose names begin with aarch64-linux-gnu-, if CC, AR, NM and LD name no others. The library is proved once more for it.
EOF
}
is_built='' target='' cpu=''
while [[ ${1-} == -* ]]; do
    case $1 in
    --help | -h) usage && exit 0 ;;
    --built) is_built=yes ;;
    --target) target=${2-} && shift ;;
    --cpu) cpu=${2-} && shift ;;
    *) break ;;
    esac
    shift || break
done
if [ $# -ne 1 ] || [[ $1 == -* ]] || [ -z "$1" ]; then
    echo "usage: bash install/install.sh [--built] PREFIX, or with [--target TARGET] [--cpu CPU]" >&2
    exit 2
fi
[[ $1 == /* ]] && prefix=$1 || prefix=$PWD/$1
cd "$(dirname "$0")/.."
archive=libafdx${target:+-$target}${cpu:+-$cpu}.a
needed=("crates/afdx/out/$archive")
[ "$archive" != libafdx.a ] || needed+=(crates/afdx_bench/out/afdx_bench)
for it in ${is_built:+"${needed[@]}"}; do
    [ -e "$it" ] || { echo "$it isn't there: run install.sh without --built" >&2 && exit 1; }
done
# A folder that can't be made is known before the proofs.
mkdir -p "$prefix"
prefix=$(cd "$prefix" && pwd)

# Proves and builds a file of a crate by a command of rt, if it is missing or a source is newer, unless what is built is taken.
build() {
    local crate=$1 built=crates/$1/out/$2
    shift 2
    [ -z "$is_built" ] || return 0
    if [ ! -e "$built" ] || [ -n "$(find crates/*/src -name '*.rt' -newer "$built" -print -quit)" ]; then
        (cd "crates/$crate" && "$@" </dev/null)
    fi
}
# Proves and builds the library for another target, and leaves the one of this system where it is.
build_other() {
    local status=0
    [ ! -e out/libafdx.a ] || mv out/libafdx.a "$room/kept.a"
    rt lib ${target:+--target "$target"} ${cpu:+--cpu "$cpu"} || status=$?
    [ $status -ne 0 ] || mv out/libafdx.a "out/$archive"
    [ ! -e "$room/kept.a" ] || mv "$room/kept.a" out/libafdx.a
    return $status
}
room=$(mktemp -d)
trap 'rm -r "$room"' EXIT
if [ "$archive" = libafdx.a ]; then
    build afdx libafdx.a rt lib
    build afdx_bench afdx_bench rt run
else
    [ "${target%%-*}" != aarch64 ] || [ "$(uname -m)" = aarch64 ] || tools=aarch64-linux-gnu-
    CC=${CC:-${tools-}${tools:+g}cc} AR=${AR:-${tools-}ar} NM=${NM:-${tools-}nm} LD=${LD:-${tools-}ld}
    build afdx "$archive" build_other
fi
kit=$(dirname "$(rt doc)")
version=$(sed -n 's/^#define AFDX_VERSION "\(.*\)"$/\1/p' crates/afdx/afdx.h)
shared=libafdx.so.${version%%.*}

# One archive, which includes the kit's part of the C library. That allocates by malloc.
cp "crates/afdx/out/$archive" "$room/libafdx.a"
if [ "${target%%-*}" = aarch64 ]; then
    (cd "$room" && $CC -O2 -ffunction-sections -c "$OLDPWD/install/hook.c" -o hook.o && $AR qs libafdx.a hook.o)
else
    (cd "$room" && ${AR:-ar} x "$kit/c/liblibc_c.a" && ${AR:-ar} qs libafdx.a ./*.o)
fi
# An archive of the calls that read no text and no recording, without the calls for memory, which a partition has.
(cd "$room" && ${AR:-ar} x "$OLDPWD/crates/afdx/out/$archive" && mkdir core
    ${NM:-nm} -g --defined-only ./afdx*.o | sed -n 's/.* T \(afdx_.*\)$/-u \1/p' |
        grep -v -x -e '-u afdx_open' -e '-u afdx_explain' -e '-u afdx_script_line' -e '-u afdx_judge' \
            -e '-u afdx_judge_pair' -e '-u afdx_capture_lost' > core/calls
    ${LD:-ld} -r --gc-sections $(cat core/calls) ./afdx*.o -o core/afdx_core.o
    ${AR:-ar} rcs libafdx_core.a core/afdx_core.o)

# Copies files into a folder of the prefix: by default files that aren't run.
mode=644
into() {
    local folder=$prefix/$1
    shift
    mkdir -p "$folder"
    install -m $mode "$@" "$folder"
}
for it in afdx.pc afdxConfig.cmake afdxConfigVersion.cmake afdx_bench.1 afdx_play.1; do
    sed "s/@VERSION@/$version/; s/@SHARED@/$shared/" "install/$it" > "$room/$it"
done
into include crates/afdx/{afdx,afdx_judge}.h bindings/afdx.hpp
into lib "$room/libafdx.a" "$room/libafdx_core.a"
into lib/pkgconfig "$room/afdx.pc"
into share/doc/afdx LICENSE-MIT LICENSE-APACHE CHANGELOG.md
# The guides are beside their pictures.
for it in docs/guide/*.md; do
    sed 's|](\.\./pictures/|](pictures/|g' "$it" > "$room/${it##*/}"
    into share/doc/afdx "$room/${it##*/}"
done
into share/doc/afdx/pictures docs/pictures/{gap,judge,report}.svg
into share/afdx/examples/bare examples/bare/main.c
if [ "$archive" != libafdx.a ]; then
    echo "afdx $version for ${target:-x86_64-unknown-linux-gnu}${cpu:+, $cpu,} is installed under $prefix"
    exit
fi
# The shared library exports exactly the calls of the headers.
echo '{ global: afdx_*; local: *; };' > "$room/exports"
${CC:-cc} -shared -Wl,-soname,"$shared",-z,defs,--version-script="$room/exports" -Wl,--whole-archive "$room/libafdx.a" \
    -Wl,--no-whole-archive -o "$room/$shared"

# The player, a C program over that archive.
${CC:-cc} -O2 -std=gnu11 -Icrates/afdx examples/play/*.c "$room/libafdx.a" -o "$room/afdx_play"

into lib "$room/$shared"
ln -sf "$shared" "$prefix/lib/libafdx.so"
into lib/cmake/afdx "$room/afdxConfig.cmake" "$room/afdxConfigVersion.cmake"
into lib/python/afdx bindings/afdx/*.py bindings/afdx/py.typed
if command -v python3 >/dev/null; then
    python3 -B install/wheel.py "$version" "$room/$shared" "$room"
    into share/afdx "$room"/*.whl
fi
mode=755 into bin crates/afdx_bench/out/afdx_bench "$room/afdx_play"
into share/man/man1 "$room/afdx_bench.1" "$room/afdx_play.1"
for name in afdx_bench afdx_play; do
    into share/bash-completion/completions "install/completions/$name.bash"
    mv "$prefix/share/bash-completion/completions/$name.bash" "$prefix/share/bash-completion/completions/$name"
    into share/zsh/site-functions "install/completions/_$name"
    into share/fish/vendor_completions.d "install/completions/$name.fish"
done
into share/afdx bindings/afdx.lua
into share/afdx/rust bindings/rust/Cargo.toml bindings/rust/build.rs
into share/afdx/rust/src bindings/rust/src/*.rs
into share/afdx/rust/examples bindings/rust/examples/main.rs
into share/afdx/examples/c examples/c/example.c examples/c/demo.toml examples/c/wire.toml
mode=755 into share/afdx/examples/c examples/c/build.sh examples/c/wire.sh examples/c/receive.py
into share/afdx/examples/play examples/play/*.c examples/play/play.h
into share/afdx/examples/bench examples/bench/interface.csv
into share/afdx/examples/cpp examples/cpp/main.cpp
into share/afdx/examples/cmake examples/cmake/CMakeLists.txt examples/cmake/main.c
into share/afdx/examples/python examples/python/main.py examples/python/bench.py
echo "afdx $version is installed under $prefix"
