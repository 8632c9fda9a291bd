#!/bin/sh
# test.sh OBJECT: looks at what the object needs from outside; compiles the examples, the tests and README.md's quick start against the object, or the static library, that
# has the calls, and compares what they write; then the same with sanitizers where the compiler has them; then builds and
# installs the library into a folder of its own and compiles a program by its pkg-config file. These may be set:
#   CC, CFLAGS, AR   another C compiler, more flags for it, and its archiver
#   RUN              what to run a program with: an emulator, for another processor (no sanitizers then)
#   VALGRIND=yes     runs the tests under valgrind too
set -eu
[ $# -eq 1 ] || { echo "usage: test.sh OBJECT (the object file or the static library that tools/library writes)" >&2; exit 2; }
case $1 in /*) object=$1 ;; *) object=$PWD/$1 ;; esac
cd "$(dirname "$0")"
unset MAKEFLAGS MFLAGS MAKELEVEL MAKEOVERRIDES
room=$(mktemp -d)
trap 'rm -rf "$room"' EXIT
run=${RUN:-}

fail() {
    echo "c: $1" >&2
    exit 1
}

# compile OUT FLAG... FILE...
compile() {
    out=$1
    shift
    # flags are words
    # shellcheck disable=SC2086
    "${CC:-cc}" -std=c11 -Wall -Wextra -Wpedantic -Werror -O1 ${CFLAGS:-} "$@" -o "$out"
}

# all FLAG...: the examples and the tests, compiled with these flags
all() {
    compile "$room/example" "$@" example.c bbqvec_index.c "$object"
    compile "$room/example_lent" "$@" example_lent.c "$object"
    compile "$room/test" "$@" test.c "$object"
    compile "$room/test_index" "$@" test_index.c "$object"
    for name in example example_lent test test_index; do
        $run "$room/$name" >"$room/$name.out" || { cat "$room/$name.out" >&2; fail "$name failed"; }
    done
    cmp "$room/example.out" example.out
    cmp "$room/example_lent.out" example.out
}

# README.md says what the library needs from outside
if command -v nm >/dev/null; then
    others=$(nm -u "$object" | awk '$1 == "U" && $2 != "memcpy" && $2 != "memset" { print $2 }' | sort -u | tr '\n' ' ')
    [ -z "$others" ] || fail "the library needs more from outside than memcpy and memset: $others"
fi

all
tail -n 1 "$room/test.out" "$room/test_index.out" | grep checks

# README.md's quick start, and what it says that this prints
# shellcheck disable=SC2016
sed -n '/^```c$/,/^```$/p' README.md | sed '/^```/d' >"$room/quick.c"
# shellcheck disable=SC2016
sed -n '/^```text$/,/^```$/p' README.md | sed '/^```/d' >"$room/quick.due"
compile "$room/quick" -I. "$room/quick.c" bbqvec_index.c "$object"
$run "$room/quick" | cmp - "$room/quick.due"

# the headers as C++ has them, and the layer as C99 has it
compile "$room/layer.o" -std=c99 -c bbqvec_index.c
if command -v c++ >/dev/null; then
    echo '#include "bbqvec_index.h"' | c++ -x c++ -std=c++98 -Wall -Wextra -Werror -I. -fsyntax-only -
fi

passed="examples, tests and quick start pass"

echo 'int main(void) { return 0; }' >"$room/none.c"
sanitize=-fsanitize=address,undefined
if [ -z "$run" ] && compile "$room/none" $sanitize "$room/none.c" 2>"$room/said" && "$room/none"; then
    all -g $sanitize -fno-sanitize-recover=all
    passed="$passed, with sanitizers too"
else
    echo "c: sanitizers do not work here, and were left out"
fi

if [ "${VALGRIND:-no}" = yes ]; then
    all -g
    for name in test test_index; do
        valgrind -q --error-exitcode=1 --leak-check=full "$room/$name" >"$room/$name.out"
    done
    passed="$passed, and under valgrind"
fi

if command -v make >/dev/null && command -v pkg-config >/dev/null; then
    # installed NAME PREFIX DESTDIR: builds, installs, compiles a program by pkg-config alone, uninstalls, and finds nothing left
    installed() {
        make -s CC="${CC:-cc}" AR="${AR:-ar}" BUILD="$room/build" OBJECT="$object"
        make -s CC="${CC:-cc}" BUILD="$room/build" PREFIX="$2" DESTDIR="$3" install
        mkdir "$room/$1"
        cp example.c "$room/$1"
        export PKG_CONFIG_LIBDIR="$3$2/lib/pkgconfig" PKG_CONFIG_SYSROOT_DIR="$3"
        grep -q "^#define BBQVEC_VERSION \"$(pkg-config --modversion bbqvec)\"$" bbqvec.h || fail "pkg-config tells another version than the header"
        # shellcheck disable=SC2046
        (cd "$room/$1" && compile example example.c $(pkg-config --cflags --libs bbqvec) && $run ./example) | cmp - example.out
        make -s BUILD="$room/build" PREFIX="$2" DESTDIR="$3" uninstall
        [ -z "$(find "$3$2" -type f)" ] || fail "uninstall left a file"
        make -s BUILD="$room/build" clean
        [ ! -e "$room/build" ] || fail "clean left something"
    }
    installed whole "$room/there" ""
    installed staged /opt/bbqvec "$room/stage"
    passed="$passed; the installed library links"
else
    echo "c: make or pkg-config is not here, and the installation was not tried"
fi
echo "c: $passed"
