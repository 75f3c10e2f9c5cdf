# The checks of bindingclay_preload, which check.sh takes in: its own tests on the host and over the layer, under valgrind and as the sanitizers
# of the compiler build them; and short test programs of others, on both.
# shellcheck shell=sh
# What is here is given to check, and its words are those of check.sh.
# shellcheck disable=SC2317,SC2154

# Whether it defines no name but those of the C library, since a program's own would be taken for it.
defines_names_of_libc() {
    nm -D --defined-only "$work/preload.so" | awk '{ print $3 }' | sort -u > "$work/defined"
    nm -D --defined-only "$("$cc" -print-file-name=libc.so.6)" | awk '{ sub(/@.*/, "", $3); print $3 }' | sort -u > "$work/of_libc"
    [ -s "$work/defined" ] && [ -z "$(comm -23 "$work/defined" "$work/of_libc" | tee /dev/stderr)" ]
}

# over_layer COMMAND..: runs it with an empty folder for FIFOs.
over_layer() {
    rm -rf "$work/folder_of_fifos" && mkdir "$work/folder_of_fifos" && LD_PRELOAD=$work/preload.so BINDINGCLAY_PRELOAD_FIFOS=$work/folder_of_fifos "$@"
}

# build_preload_test NAME FILE FLAG..: builds tests/NAME.c as FILE.
build_preload_test() {
    name=$1
    file=$2
    shift 2
    # shellcheck disable=SC2086 # $strict is several words
    check "building $file" "$cc" $strict -O1 -o "$work/$file" "$here/tests/$name.c" "$@" -pthread
}

# preload_sanitized NAME WORD: builds a test with the sources of the layer in it, but without their memory, as the sanitizer sees that of malloc.
preload_sanitized() {
    if ! can_sanitize "$2"; then
        echo "passed over: $1 with -fsanitize=$2"
        return
    fi
    test=$1
    word=$2
    set --
    for source in "$here"/preload/*.c "$here"/blocking/*.c; do
        [ "$source" = "$here/preload/memory.c" ] || set -- "$@" "$source"
    done
    mkdir -p "$work/folder_of_fifos"
    # a handler calls malloc here, which it doesn't in the shared object
    build_preload_test "$test" preload_sanitized "-fsanitize=$word" "$@" "-I$work/prefix/include" "-L$work/prefix/lib" -lbindingclay -ldl &&
        check "$test with -fsanitize=$word" env TSAN_OPTIONS=report_signal_unsafe=0 "BINDINGCLAY_PRELOAD_FIFOS=$work/folder_of_fifos" timeout 300 \
            "$work/preload_sanitized" layer "$work/folder_of_fifos"
}

try_preload() {
    if [ ! -f "$work/prefix/lib/libbindingclay_shared.a" ] || [ "$(uname -s)" != Linux ]; then
        echo "passed over: bindingclay_preload"
        return
    fi
    check "building bindingclay_preload" env "CC=$cc" "$here/preload/build.sh" "$work/prefix" "$work/preload.so" || return
    check "the names of bindingclay_preload" defines_names_of_libc
    for name in preload preload_waits; do
        build_preload_test "$name" "$name" || continue
        mkdir -p "$work/folder_of_fifos"
        check "$name on the host" timeout 120 "$work/$name" host "$work/folder_of_fifos"
        check "$name over the layer" over_layer timeout 120 "$work/$name" layer "$work/folder_of_fifos"
        if is_there "$valgrind"; then
            check "$name over the layer under valgrind" over_layer timeout 600 "$valgrind" -q --error-exitcode=99 --leak-check=full \
                --show-leak-kinds=all --errors-for-leak-kinds=all "--suppressions=$here/tests/valgrind.supp" "$work/$name" layer "$work/folder_of_fifos"
        else
            echo "passed over: $name over the layer under valgrind"
        fi
        preload_sanitized "$name" address,undefined
        preload_sanitized "$name" thread
    done
    if is_there python3; then
        check "the tests of suites.py" python3 -B "$here/tests/preload_suites.py"
        mkdir "$work/suites"
        check "test programs over the layer" python3 -B "$here/preload/suites.py" "$work/preload.so" "$work/suites" short &&
            sed 's/^/over the layer: /' "$work/log"
    else
        echo "passed over: test programs over the layer"
    fi
}
