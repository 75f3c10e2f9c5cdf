# The checks of other processors, which check.sh takes in: what is installed for them, flags that have other numbers there, and limits where the first
# byte of a word is its greatest. What isn't there is passed over: compilers for AArch64 and s390x, and qemu's programs that run what they build.
# shellcheck shell=sh
# What is here is given to check, and its words are those of check.sh.
# shellcheck disable=SC2317,SC2154

# Whether an installation of which a part can't be built leaves nothing.
leaves_nothing_half_installed() {
    ! CC=false "$here/install.sh" "$work/none" || return 1
    [ ! -d "$work/none" ] || [ -z "$(find "$work/none" -type f | tee /dev/stderr)" ]
}

# An archive for AArch64 that stands for the library, and memory: it has the functions, and they do nothing.
stands_for_the_library() {
    mkdir -p "$work/aarch64"
    sed -n 's/^[a-z0-9_]* \(bindingclay_[a-z0-9_]*\)(.*/void \1(void) {}/p' "$here/include/bindingclay.h" > "$work/aarch64/library.c"
    for source in "$work/aarch64/library.c" "$here/../rust/memory.c"; do
        name=$(basename "$source" .c)
        aarch64-linux-gnu-gcc -c -o "$work/aarch64/$name.o" "$source" && aarch64-linux-gnu-ar rcs "$work/aarch64/$name.a" "$work/aarch64/$name.o" || return 1
    done
}

# Whether all that there is for this processor is installed for AArch64, and is of it.
installs_for_aarch64() {
    stands_for_the_library || return 1
    ARCHIVE=$work/aarch64/library.a MEMORY=$work/aarch64/memory.a CC=aarch64-linux-gnu-gcc AR=aarch64-linux-gnu-ar LD=aarch64-linux-gnu-ld \
        OBJCOPY=aarch64-linux-gnu-objcopy "$here/install.sh" "$work/aarch64/prefix" || return 1
    (cd "$work/prefix" && find . ! -type d | sort) > "$work/here"
    (cd "$work/aarch64/prefix" && find . ! -type d | sort) | diff "$work/here" - || return 1
    for archive in "$work"/aarch64/prefix/lib/*.a; do
        [ "$(readelf -h "$archive" | sed -n 's/^ *Machine: *//p' | sort -u)" = AArch64 ] || return 1
    done
}

# with_flags_of_aarch64 NAME: a test of the front, where flags of fcntl.h have the numbers of AArch64. What the library calls O_DIRECT is another there.
with_flags_of_aarch64() {
    # shellcheck disable=SC2086
    check "building $1 with flags of AArch64" "$cc" $strict -O1 -D__O_DIRECTORY=040000 -D__O_NOFOLLOW=0100000 -D__O_DIRECT=0200000 \
        "-I$work/prefix/include" -o "$work/other_flags" "$here/tests/$1.c" "$here"/blocking/*.c "-L$work/prefix/lib" -lbindingclay -pthread &&
        check "$1 with flags of AArch64" timeout 300 "$work/other_flags"
}

# words_of PROCESSOR COMPILER RUNNER..: the words of limits, by a compiler and what runs its programs.
words_of() {
    processor=$1
    compiler=$2
    shift 2
    if is_there "$compiler" && { [ $# -eq 0 ] || is_there "$1"; }; then
        check "building limits_words for $processor" "$compiler" -Wall -Wextra -Werror -std=c11 -O1 ${1:+-static} "-I$work/prefix/include" \
            -o "$work/limits_words" "$here/tests/limits_words.c" && check "limits_words on $processor" timeout 60 "$@" "$work/limits_words"
    else
        echo "passed over: limits_words on $processor"
    fi
}

try_machines() {
    words_of "this processor" "$cc"
    words_of AArch64 aarch64-linux-gnu-gcc qemu-aarch64
    words_of s390x s390x-linux-gnu-gcc qemu-s390x
    if [ ! -f "$work/prefix/lib/libbindingclay_shared.a" ]; then
        echo "passed over: the front on other processors"
        return
    fi
    check "an installation that fails" leaves_nothing_half_installed
    for name in shared shared_waits; do
        with_flags_of_aarch64 "$name"
    done
    if is_there aarch64-linux-gnu-gcc; then
        check "installing for AArch64" installs_for_aarch64
    else
        echo "passed over: installing for AArch64"
    fi
}
