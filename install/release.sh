#!/usr/bin/env bash
# Makes the files of a release, from two builds that have to be the same.
set -eu
usage() {
    cat <<'EOF'
Makes the files of a release of the AFDX end system.

    bash install/release.sh [--built] FOLDER
    bash install/release.sh --help

It copies what is committed into two folders, installs each (install/install.sh), and compares all files that are installed,
byte by byte. FOLDER, which isn't there yet, gets an archive of the installation, the archives of the library, the programs, the
wheel, the line of the kit that built them, and SHA256SUMS. Each of the two builds proves everything, which may take an hour.
With --built both take the library and the program that this tree has built, so that only the installation is compared.
EOF
}
is_built=
case ${1-} in
--help | -h) usage && exit 0 ;;
--built) is_built=--built && shift ;;
esac
if [ $# -ne 1 ] || [[ $1 == -* ]] || [ -z "$1" ]; then
    echo "usage: bash install/release.sh [--built] FOLDER, which isn't there yet" >&2
    exit 2
fi
if [ -e "$1" ]; then
    echo "$1 is there already: name a new folder" >&2
    exit 2
fi
mkdir -p "$1"
folder=$(cd "$1" && pwd)
cd "$(dirname "$0")/.."
room=$(mktemp -d)
# (a folder without files isn't left behind)
trap 'rm -rf "$room"; rmdir "$folder" 2>/dev/null || true' EXIT

# Copies the tree, the second time to a longer path, and installs it.
for it in one another-folder; do
    mkdir -p "$room/$it"
    if [ -n "$is_built" ]; then
        tar -c --exclude=./.git --exclude='./crates/*/out' . | tar -x -C "$room/$it"
        for file in afdx/out/libafdx.a afdx_bench/out/afdx_bench; do
            [ -e "crates/$file" ] || { echo "crates/$file isn't there: run release.sh without --built" >&2 && exit 1; }
            mkdir -p "$room/$it/crates/${file%/*}"
            cp "crates/$file" "$room/$it/crates/$file"
        done
    else
        git archive HEAD | tar -x -C "$room/$it"
    fi
    bash "$room/$it/install/install.sh" $is_built "$room/$it.prefix" >&2
done
if ! diff -r "$room/one.prefix" "$room/another-folder.prefix" >&2; then
    echo "the two builds differ in the files above, though their sources are the same" >&2
    exit 1
fi

version=$(sed -n 's/^#define AFDX_VERSION "\(.*\)"$/\1/p' crates/afdx/afdx.h)
mv "$room/one.prefix" "$room/afdx-$version"
tar -c --sort=name --mtime=@0 --owner=0 --group=0 --numeric-owner -C "$room" "afdx-$version" |
    gzip -n > "$folder/afdx-$version-x86_64-linux.tar.gz"
cp "$room/afdx-$version"/lib/libafdx{,_core}.a "$room/afdx-$version"/bin/afdx_{bench,play} "$folder"
cp "$room/afdx-$version"/share/afdx/*.whl "$folder" 2>/dev/null || true
rt version > "$folder/KIT"
(cd "$folder" && sha256sum -- * > "$room/sums" && mv "$room/sums" SHA256SUMS)
echo "afdx $version is in $folder"
