# shellcheck shell=sh disable=SC2034
# How what is proved here is built, and C programs over it, on x86-64. Sourced by run, install, .ci/archives, tests/run,
# tests/installed.sh and the scripts of bench/, in the repository's root.

kit=$(dirname "$(rt doc)")
tools=$kit/toolchain/bin
lib=$kit/toolchain/lib

# compile SOURCE OBJECT [FLAG...]: by the kit's compiler, which has the freestanding headers alone.
compile() {
    compile_source=$1 compile_object=$2
    shift 2
    "$tools/clang" --target=x86_64-unknown-linux-gnu -march=x86-64 -std=c11 -ffreestanding -nostdinc \
        -isystem "$(gcc -print-file-name=include)" -Iinclude -Wall -Wextra -Werror -fPIE "$@" \
        -c "$compile_source" -o "$compile_object"
}

# link PROGRAM FILE...: objects and archives, with the kit's C library.
link() {
    link_program=$1
    shift
    "$tools/ld.lld" -pie -dynamic-linker /lib64/ld-linux-x86-64.so.2 -o "$link_program" \
        "$lib/Scrt1.o" "$lib/crti.o" "$lib/crtbeginS.o" "$@" \
        "$lib/libc.so.6" "$lib/libc_nonshared.a" "$lib/crtendS.o" "$lib/crtn.o"
}

# build_over ARCHIVE FLAG PROGRAM SOURCE...: a C program over an archive, compiled with one more flag by the machine's
# own compiler, as a laboratory would.
build_over() {
    build_archive=$1 build_flag=$2 build_program=$3
    shift 3
    gcc -std=c11 -O2 -Wall -Wextra -Werror "$build_flag" -Iinclude -o "$build_program" "$@" "$build_archive"
}

# build_bare ARCHIVE FLAG PROGRAM SOURCE...: the same by the kit's own compiler and linker, with what tests/libc declares,
# as where a machine has no C library's headers.
build_bare() {
    build_archive=$1 build_flag=$2 build_program=$3
    shift 3
    for build_source in "$@"; do
        shift
        build_object=$build_program.$(basename "$build_source" .c).o
        compile "$build_source" "$build_object" "$build_flag" -O2 -Itests/libc
        set -- "$@" "$build_object"
    done
    link "$build_program" "$@" "$build_archive"
}

# build PROGRAM SOURCE [ARCHIVE]: one over the library that is installed under $prefix, or over another archive.
build() {
    build_over "${3:-$prefix/lib/libfearnavult.a}" "-I$prefix/include" "$1" "$2"
}

# stale FILE PATH...: whether FILE is not there, or a source below these paths is newer.
stale() {
    stale_file=$1
    shift
    [ ! -e "$stale_file" ] || [ -n "$(find "$@" -name out -prune -o -type f -newer "$stale_file" -print)" ]
}

# prove NAME VERB RESULT: rt VERB in the crate NAME, which makes the file RESULT, if that is stale. It is as old as the
# moment when its making began. Standard error tells what is proved, since standard output is the program's own. The
# rest of what rt says is shown only where it fails.
prove() {
    stale "$3" crates crates.txt || return 0
    echo "proving what $3 is built from" >&2
    mkdir -p target
    touch target/begun
    prove_said=$(mktemp)
    { (cd "crates/$1" && rt "$2") </dev/null 2>&1 || echo "rt failed"; } | tee "$prove_said" |
        sed -un 's/^rt: chose --jobs [0-9]* for /proving /p' >&2
    prove_end=$(tail -n 1 "$prove_said")
    [ "$prove_end" != "rt failed" ] || cat "$prove_said" >&2
    rm -f "$prove_said"
    [ "$prove_end" != "rt failed" ] && touch -r target/begun "$3"
}

# Proves the C library and sets archive to its path. FV_ARCHIVE=FILE takes another archive instead,
# to see that the tests notice a wrong one or to measure it.
make_archive() {
    archive=${FV_ARCHIVE:-crates/fearnavult/out/libfearnavult.a}
    [ -n "${FV_ARCHIVE:-}" ] || prove fearnavult lib "$archive"
}

# make_shared FILE: the shared library of make_archive's archive, by the kit's linker.
# A program that was linked with it asks for it by the name in shared. The number there goes up when a struct or a call
# takes another shape, so that a program of the old shape does not meet the new one.
shared=libfearnavult.so.0
make_shared() {
    "$tools/ld.lld" -shared -z defs -soname "$shared" -o "$1" \
        --whole-archive "$archive" --no-whole-archive "$lib/libc.so.6"
}

# make_program PROGRAM: the program fearnavult over make_archive's archive.
make_program() {
    build_over "$archive" -D_POSIX_C_SOURCE=200809L "$1" program/*.c
}
