#!/bin/sh
# Installs the library for C below a folder: install.sh PREFIX
#
# All of it is built first. If something can't be built, the status isn't 0, and nothing is installed.
#
#   PREFIX/include/bindingclay.h, bindingclay_shared.h
#   PREFIX/lib/libbindingclay.a            with what takes its memory from malloc
#   PREFIX/lib/libbindingclay_shared.a     the front for threads of blocking/, if there is a C compiler
#   PREFIX/lib/libbindingclay_shared_helgrind.a    the same for helgrind and drd, which find no false race in it; and what else helgrind is not to
#       tell, in PREFIX/share/bindingclay/helgrind.supp
#   PREFIX/include/bindingclay_allocator.h, and PREFIX/lib/libbindingclay_allocator.a, which is both archives with memory from an allocator of
#       the program, if there is a C compiler
#   PREFIX/lib/pkgconfig/bindingclay.pc
#   PREFIX/share/man                       the manual pages of man/, and links to them by the names of functions
#
# Each archive has one object, which defines the functions of its headers. A program sees no other name of it, so it may use all others itself.
#
# Environment, each with what is taken without it:
#   ARCHIVE  the library as rt lib built it    crates/bindingclay/out/libbindingclay.a
#   MEMORY   the toolchain's archive of rattle_alloc, rattle_realloc and rattle_dealloc    c/liblibc_c.a beside what rt doc names
#   RT, AR, LD, OBJCOPY, CC    rt, ar, ld, objcopy, cc; for another processor than this one its own, as aarch64-linux-gnu-gcc
set -eu

if [ $# -ne 1 ]; then
    echo "usage: install.sh PREFIX" >&2
    exit 2
fi
here=$(CDPATH='' cd -- "$(dirname -- "$0")" && pwd)
archive=${ARCHIVE:-$here/../crates/bindingclay/out/libbindingclay.a}
memory=${MEMORY:-}
if [ -z "$memory" ]; then
    page=$("${RT:-rt}" doc)
    memory=$(dirname -- "$page")/c/liblibc_c.a
fi
case $memory in
/*) ;;
*) memory=$PWD/$memory ;;
esac
ar=${AR:-ar}
for tool in "$ar" "${LD:-ld}" "${OBJCOPY:-objcopy}"; do
    if ! command -v "$tool" > /dev/null 2>&1; then
        echo "install.sh: no $tool (binutils has it)" >&2
        exit 1
    fi
done
for file in "$archive" "$memory"; do
    if [ ! -f "$file" ]; then
        echo "install.sh: no file $file (rt lib in crates/bindingclay builds the archive)" >&2
        exit 1
    fi
done
work=$(mktemp -d)
trap 'rm -rf "$work"' EXIT
# what is to be below PREFIX
built=$work/built
mkdir -p "$built/include" "$built/lib/pkgconfig"

# declared HEADER..: the functions that headers of this folder declare, and don't define.
declared() {
    (cd "$here" && sed -n '/^typedef /d; /^static /d; s/^[a-z][a-z0-9_ ]*[ *]\(b[a-z]*_[a-z0-9_]*\)(.*/\1/p' "$@") | sort -u
}

# join OBJECT FILE..: makes one object of others.
join() {
    joined=$1
    shift
    "${LD:-ld}" -r -o "$joined" "$@"
}

# put OBJECT ARCHIVE HEADER..: makes an archive of an object, of which only the functions are seen that headers declare.
put() {
    object=$1
    name=$2
    shift 2
    declared "$@" > "$work/seen"
    "${OBJCOPY:-objcopy}" "--keep-global-symbols=$work/seen" "$object" "$work/${name%.a}.o"
    (cd "$work" && "$ar" qcsD "built/lib/$name" "${name%.a}.o")
}

# The library and its memory, so that who links it needs nothing of the toolchain. What no function of the header needs isn't in it.
declared include/bindingclay.h > "$work/functions"
# shellcheck disable=SC2046 # a word for each name
join "$work/library.o" --gc-sections -e "$(head -n 1 "$work/functions")" $(sed 's/^/-u /' "$work/functions") "$archive" "$memory"
put "$work/library.o" libbindingclay.a include/bindingclay.h
install -m 644 "$here/include/bindingclay.h" "$here/blocking/bindingclay_shared.h" "$built/include"

# build_front FOLDER ARCHIVE FLAG..: the front for threads. Its objects name no folder, so the same compiler gives the same bytes.
build_front() {
    front=$work/$1
    archive_of_front=$2
    shift 2
    mkdir "$front"
    for source in "$here"/blocking/*.c; do
        name=${source##*/}
        (cd "$here/blocking" && "${CC:-cc}" -std=c11 -O2 -fPIC -Wall -Wextra "$@" -I../include -c -o "$front/${name%.c}.o" "$name")
    done
    join "$front.o" "$front"/*.o
    put "$front.o" "$archive_of_front" blocking/bindingclay_shared.h
}

if command -v "${CC:-cc}" > /dev/null 2>&1; then
    build_front blocking libbindingclay_shared.a
    build_front helgrind libbindingclay_shared_helgrind.a -DBC_FOR_HELGRIND
    mkdir -p -- "$built/share/bindingclay"
    install -m 644 "$here/tests/helgrind.supp" "$built/share/bindingclay/helgrind.supp"
else
    echo "passed over: libbindingclay_shared.a, as there is no ${CC:-cc}"
fi

# Both in one, with other names for the functions that give memory. The library's functions with a kernel get other names too, and those of
# allocator/ have theirs.
if command -v "${CC:-cc}" > /dev/null 2>&1; then
    mkdir "$work/allocator"
    awk -f "$here/allocator/calls.awk" "$here/include/bindingclay.h" > "$work/allocator/bindingclay_allocator_calls.h"
    sed -n 's/^#undef bindingclay_\(.*\)/bindingclay_\1 bindingclay_inner_\1/p' "$work/allocator/bindingclay_allocator_calls.h" \
        > "$work/allocator/names"
    "${OBJCOPY:-objcopy}" "--redefine-syms=$work/allocator/names" "$work/library.o" "$work/renamed.o"
    join "$work/both.o" "$work/renamed.o" "$work/blocking.o"
    "${OBJCOPY:-objcopy}" --redefine-sym malloc=bindingclay_malloc --redefine-sym calloc=bindingclay_calloc \
        --redefine-sym realloc=bindingclay_realloc --redefine-sym free=bindingclay_release "$work/both.o"
    for source in "$here"/allocator/*.c; do
        name=${source##*/}
        (cd "$here/allocator" && "${CC:-cc}" -std=c11 -O2 -fPIC -Wall -Wextra -I../include -I../blocking "-I$work/allocator" -c \
            -o "$work/allocator/${name%.c}.o" "$name")
    done
    join "$work/allocator.o" "$work/both.o" "$work"/allocator/*.o
    put "$work/allocator.o" libbindingclay_allocator.a include/bindingclay.h blocking/bindingclay_shared.h allocator/bindingclay_allocator.h
    install -m 644 "$here/allocator/bindingclay_allocator.h" "$built/include"
else
    echo "passed over: libbindingclay_allocator.a, as there is no ${CC:-cc}"
fi

# A page of section 3 is found by the name of each function that its section NAME has.
for page in "$here"/man/*.[137]; do
    file=${page##*/}
    section=man${file##*.}
    mkdir -p -- "$built/share/man/$section"
    install -m 644 "$page" "$built/share/man/$section/$file"
    [ "$section" = man3 ] || continue
    # shellcheck disable=SC2013 # names without blanks
    for name in $(sed -n '/^\.Sh NAME$/,/^\.Nd/s/^\.Nm \([a-z0-9_]*\).*/\1/p' "$page"); do
        [ "$name.3" = "$file" ] || printf '.so man3/%s\n' "$file" > "$built/share/man/man3/$name.3"
    done
done

number() {
    sed -n "s/^#define BINDINGCLAY_VERSION_$1 \([0-9]*\)\$/\1/p" "$here/include/bindingclay.h"
}
mkdir -p -- "$1"
prefix=$(CDPATH='' cd -- "$1" && pwd)
cat > "$built/lib/pkgconfig/bindingclay.pc" <<END
prefix=$prefix
libdir=\${prefix}/lib
includedir=\${prefix}/include

Name: bindingclay
Description: POSIX pipes, FIFOs and regular files in the memory of one process
Version: $(number MAJOR).$(number MINOR).$(number PATCH)
Libs: -L"\${libdir}" -lbindingclay
Cflags: -I"\${includedir}"
END

(cd "$built" && find . -type f) | while IFS= read -r file; do
    mkdir -p -- "$(dirname -- "$prefix/$file")"
    install -m 644 "$built/$file" "$prefix/$file"
done
