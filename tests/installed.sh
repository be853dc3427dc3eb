#!/bin/sh
# tests/installed.sh PREFIX: what ./install has put under PREFIX is all that it is to put there, and so it is under a
# DESTDIR; pkg-config finds it; the archive asks for no more than the header says; the two libraries have the header's
# calls and no other names; the header is C99, C11 and C++11; the program tells its version, and ./run starts it where
# the caller stands.
set -eu
cd "$(dirname "$0")/.."
. tests/machine.sh
prefix=$1
built=target/tests
mkdir -p "$built"

# is FILE WHAT: ends the tests where a file is not as standard input says.
is() {
    diff "$1" - || { echo "tests: FAILED: $2" >&2; exit 1; }
}

# files FOLDER: all that is in it, but for folders.
files() {
    (cd "$1" && find . ! -type d | LC_ALL=C sort)
}

# pc PREFIX: what fearnavult.pc has to say.
pc() {
    echo "prefix=$1"
    sed "1d; s/@version@/$version/" fearnavult.pc.in
}

rm -rf "$built/package"
DESTDIR=$built/package ./install /opt/fearnavult
packed=$built/package/opt/fearnavult
set -- bin/fearnavult include/fearnavult.h lib/libfearnavult.a lib/libfearnavult.so "lib/$shared" \
    lib/pkgconfig/fearnavult.pc
files "$prefix" >"$built/files"
printf './%s\n' "$@" | is "$built/files" "these files are not those that are to be installed"
files "$built/package" >"$built/files"
printf './opt/fearnavult/%s\n' "$@" | is "$built/files" "these files are not those that are to be under a DESTDIR"
cmp include/fearnavult.h "$prefix/include/fearnavult.h"
cmp include/fearnavult.h "$packed/include/fearnavult.h"

# The preprocessor leaves the three parts of the version as three texts, one after the other.
version=$(printf '#include "fearnavult.h"\nFV_VERSION\n' | gcc -E -P -Iinclude - | tail -n 1 | tr -d '" ')
pc "$(cd "$prefix" && pwd)" | is "$prefix/lib/pkgconfig/fearnavult.pc" "fearnavult.pc is not as it is to be"
pc /opt/fearnavult |
    is "$packed/lib/pkgconfig/fearnavult.pc" "fearnavult.pc does not name PREFIX alone under a DESTDIR"
echo "$version" >"$built/version"
sed -n 's/^## \([0-9.]*\).*/\1/p' CHANGELOG.md | head -n 1 |
    is "$built/version" "CHANGELOG.md begins with another version"

nm -u "$prefix/lib/libfearnavult.a" | sed -n 's/^ *U //p' | LC_ALL=C sort -u >"$built/asked"
printf '%s\n' memcpy memset | is "$built/asked" "the archive asks for other names than memcpy and memset"
sed -n 's/^fv_[a-z]* \(fv_[a-z_]*\)(.*/\1/p' include/fearnavult.h | LC_ALL=C sort >"$built/calls"
nm -g --defined-only "$prefix/lib/libfearnavult.a" | sed -n 's/.* [A-Z] //p' | LC_ALL=C sort |
    is "$built/calls" "the archive has other names than the header's calls"
nm -D --defined-only "$prefix/lib/$shared" | sed -n 's/.* [A-Z] //p' | LC_ALL=C sort |
    is "$built/calls" "the shared library has other names than the header's calls"
LC_ALL=C readelf -d "$prefix/lib/$shared" | sed -n 's/.*(\([A-Z]*\)).*\[\(.*\)\]/\1 \2/p' >"$built/linked"
printf '%s\n' "NEEDED libc.so.6" "SONAME $shared" | is "$built/linked" "the shared library is linked otherwise"

# The kit's compiler knows C++; gcc knows it where g++ is there.
check_language() {
    "$tools/clang" --target=x86_64-unknown-linux-gnu -ffreestanding -nostdinc \
        -isystem "$(gcc -print-file-name=include)" -I"$prefix/include" -pedantic -Wall -Wextra -Werror -fsyntax-only \
        -x "$1" "-std=$2" tests/header/languages.c
    if [ "$1" = c ] || command -v g++ >/dev/null; then
        gcc -I"$prefix/include" -pedantic -Wall -Wextra -Werror -fsyntax-only -x "$1" "-std=$2" tests/header/languages.c
    fi
}
check_language c c99
check_language c c11
check_language c++ c++11

# A program built as pkg-config says takes the shared library.
if command -v pkg-config >/dev/null; then
    PKG_CONFIG_PATH=$(cd "$prefix" && pwd)/lib/pkgconfig
    export PKG_CONFIG_PATH
    pkg-config --modversion fearnavult | is "$built/version" "pkg-config tells another version"
    # shellcheck disable=SC2046
    gcc -std=c11 -o "$built/register_shared" examples/register.c $(pkg-config --cflags --libs fearnavult)
    LD_LIBRARY_PATH=$prefix/lib "$built/register_shared" >"$built/register_shared.stdout"
    python3 -B tests/second/register_example.py |
        is "$built/register_shared.stdout" "examples/register.c over the shared library prints otherwise"
fi

"$prefix/bin/fearnavult" --version >"$built/version"
echo "fearnavult $version" | is "$built/version" "the program tells another version"
printf '>cag\nTCAGCAGCAGT\n' >"$built/cag.fa"
(cd "$built" && ../../run fearnavult identify -r cag.fa --tsv 4 4 CAG) | tail -n 1 >"$built/identified"
printf 'allele\tga4gh:VA.AI9QWkPg6MybxSaPDP38hunMAsLzNpmS\n' |
    is "$built/identified" "./run fearnavult prints otherwise"
status=0
./run fearnavult identify -r "$built/cag.fa" 9 4 CAG 2>"$built/refused" || status=$?
[ "$status" -eq 1 ] || { echo "tests: FAILED: ./run does not end as the program does" >&2; exit 1; }
