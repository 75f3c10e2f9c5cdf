#!/bin/sh
# Builds the library for C, and runs the programs of tests/ over it: as they are, and under valgrind where there is one; and piperun, where
# it is built; and docs/check. The last line is 'N passed, M failed', and the status is 1 where one failed. With the word release it tries a
# release alone, with the word preload what library/preload has, and with the word live live runs and records of piperun, which want no archive.
#
# Environment, each with what is taken without it:
#   ARCHIVE   an archive that is built already    it is built over what rt ci left, or else by rt lib in crates/bindingclay
#   RT, CC, CXX, RUSTC, VALGRIND                  rt, cc, c++, rustc, valgrind; what isn't there, but for RT and CC, is passed over
#   MEMORY, AR                                    as of install.sh
#   PIPELINE_LINES   how many lines go through the pipeline of programs/    681000, which are 10 MiB
#   PIPERUN   the program piperun                 crates/piperun/out/piperun; it is passed over where it isn't there
set -u

here=$(CDPATH='' cd -- "$(dirname -- "$0")" && pwd) || exit 2
rt=${RT:-rt}
cc=${CC:-cc}
cxx=${CXX:-c++}
rustc=${RUSTC:-rustc}
valgrind=${VALGRIND:-valgrind}
examples=$here/../crates/pl_examples/data
piperun=${PIPERUN:-$here/../crates/piperun/out/piperun}
passed=0
failed=0
work=$(mktemp -d) || exit 2
trap 'rm -rf "$work"' EXIT
# valgrind runs one thread at a time; without turns, a thread that asks again and again can keep the others waiting for minutes
export VALGRIND_OPTS="--fair-sched=try ${VALGRIND_OPTS:-}"

# check NAME COMMAND..: runs the command, and counts it. Where it fails, its status is printed (124: it ran out of time) and what it printed.
check() {
    label=$1
    shift
    status=0
    "$@" > "$work/log" 2>&1 || status=$?
    if [ "$status" -eq 0 ]; then
        passed=$((passed + 1))
    else
        failed=$((failed + 1))
        echo "FAILED: $label: status $status"
        sed 's/^/    /' "$work/log"
        return 1
    fi
}

end() {
    echo "$passed passed, $failed failed"
    if [ "$failed" -eq 0 ]; then exit 0; else exit 1; fi
}

is_there() {
    command -v "$1" > /dev/null 2>&1
}

# plainly NAME ARGUMENT..: runs a program that was built.
plainly() {
    built=$1
    shift
    check "$built" timeout 120 "$work/$built" "$@"
}

# under_valgrind NAME ARGUMENT..: runs it under valgrind, where no block may be left of the kinds of $leaks.
leaks=all
under_valgrind() {
    built=$1
    shift
    if is_there "$valgrind"; then
        check "$built under valgrind" timeout 900 "$valgrind" -q --error-exitcode=99 --leak-check=full "--show-leak-kinds=$leaks" \
            "--errors-for-leak-kinds=$leaks" "--suppressions=$here/tests/valgrind.supp" "$work/$built" "$@"
    else
        echo "passed over: $built under valgrind"
    fi
}

# run NAME ARGUMENT..: runs it both ways.
run() {
    plainly "$@"
    under_valgrind "$@"
}

# without_races NAME ARGUMENT..: runs a program with threads, and looks for races between them.
without_races() {
    built=$1
    shift
    if is_there "$valgrind"; then
        check "$built under helgrind" timeout 900 "$valgrind" -q --tool=helgrind --error-exitcode=99 \
            "--suppressions=$here/tests/helgrind.supp" "$work/$built" "$@"
    else
        echo "passed over: $built under helgrind"
    fi
}

# build NAME FLAG..: builds tests/NAME.c with what is installed.
build() {
    built=$1
    shift
    check "building $built" "$cc" -Wall -Wextra -Werror -std=c11 -O1 -g "-I$work/prefix/include" -o "$work/$built" \
        "$here/tests/$built.c" "-L$work/prefix/lib" -lbindingclay "$@"
}

# build_in_rust NAME: builds the tests rust/tests/NAME.rs over the wrapper.
build_in_rust() {
    check "building $1.rs" "$rustc" --edition 2021 -D warnings -O --test -o "$work/$1" "$here/../rust/shared/tests/$1.rs" \
        --extern "bindingclay=$work/libbindingclay.rlib" -L "$work/prefix/lib" -l static=bindingclay
}

# The functions below are given to check.
# shellcheck disable=SC2317
build_archive() {
    built=0
    "$here/../tools/archive" || built=$?
    # the libraries that it stands on aren't rt ci's
    [ "$built" -ne 3 ] || { built=0; (cd "$here/../crates/bindingclay" && "$rt" lib) || built=$?; }
    return "$built"
}

# functions_of HEADER..: the functions that headers of what is installed declare, and don't define.
# shellcheck disable=SC2317
functions_of() {
    (cd "$work/prefix/include" && grep -hE '^[a-z].*[ *](bc|bindingclay)_[a-z0-9_]*\(' "$@") | grep -vE '^(static|typedef) ' |
        sed 's/(.*//; s/.*[ *]//' | sort -u
}

# defines_only ARCHIVE HEADER..: whether an archive that is installed defines the functions that headers declare, each once, and no other name that a
# program could meet.
# shellcheck disable=SC2317
defines_only() {
    name=$1
    shift
    functions_of "$@" > "$work/declared"
    [ -s "$work/declared" ] || return 1
    nm -g --defined-only "$work/prefix/lib/$name" | awk 'NF == 3 { print $3 }' | sort > "$work/defined"
    diff "$work/declared" "$work/defined"
}

# Whether the library wants nothing of the C library but memory and what copies, sets and compares it.
# shellcheck disable=SC2317
wants_little() {
    printf '%s\n' free malloc memcmp memcpy memmove memset realloc > "$work/may_be_wanted"
    nm -g --undefined-only "$work/prefix/lib/libbindingclay.a" | awk 'NF == 2 { print $2 }' | sort -u > "$work/wanted"
    [ -s "$work/wanted" ] && [ -z "$(comm -13 "$work/may_be_wanted" "$work/wanted" | tee /dev/stderr)" ]
}

# Whether the archive with an allocator has the library's own functions behind those of the header, under other names, except of the two that take no
# kernel. Without the other name a function wouldn't find the allocator that a kernel keeps.
# shellcheck disable=SC2317
finds_each_allocator() {
    nm --defined-only "$work/prefix/lib/libbindingclay_allocator.a" | awk 'NF == 3 { print $3 }' | sort > "$work/with_allocator"
    functions_of bindingclay.h | sed -n '/^bindingclay_open_words$/d; /^bindingclay_version$/d; s/^bindingclay_/bindingclay_inner_/p' > "$work/inner"
    [ -s "$work/inner" ] || return 1
    [ -z "$(comm -23 "$work/inner" "$work/with_allocator" | tee /dev/stderr)" ]
}

# Whether the list of scripts names exactly those that are there, and whether no other files are there. Those of programs and of harnesses
# have no output beside them.
# shellcheck disable=SC2317
lists_what_is_there() {
    (cd "$examples" && find . -type f ! -path ./scripts ! -path './pictures/*.svg' ! -path './real/*' ! -path './harness/*') | sed 's|^\./||' | sort > "$work/there"
    sed -n 's/\.script$//p' "$work/there" > "$work/scripts_there"
    sort "$examples/scripts" | diff - "$work/scripts_there" || return 1
    while IFS= read -r name; do
        printf '%s\n' "$name.script" "$name.out"
        [ ! -f "$examples/$name.args" ] || printf '%s\n' "$name.args"
    done < "$examples/scripts" | sort | diff - "$work/there"
}

# shellcheck disable=SC2317
build_by_pkg_config() {
    flags=$(PKG_CONFIG_PATH=$work/prefix/lib/pkgconfig pkg-config --cflags --libs bindingclay) || return 1
    # pkg-config quotes what it prints for a shell
    eval "set -- $flags"
    "$cc" -Wall -Wextra -Werror -std=c11 -o "$work/example" "$here/example.c" "$@"
}

# loop_prints_what_it_should PROGRAM
# shellcheck disable=SC2317
loop_prints_what_it_should() {
    timeout 60 "$1" > "$work/printed" && printf 'process %d: 200000 bytes\n' 1 2 3 | diff - "$work/printed"
}

# shellcheck disable=SC2317
example_record_passes() {
    "$work/example_record" > "$work/record" && "$piperun" --check "$work/record" | tee "$work/printed" &&
        echo '6 replies as recorded' | diff - "$work/printed"
}

# shellcheck disable=SC2317
example_prints_what_it_should() {
    "$work/example" > "$work/printed" && printf 'the child read hello\nand then 0 bytes\n' | diff - "$work/printed"
}

# shellcheck disable=SC1091
. "$here/tests/piperun.sh"
# shellcheck disable=SC1091
. "$here/tests/live.sh"
if [ "${1:-}" = live ]; then
    try_live
    end
fi

if [ -z "${ARCHIVE:-}" ]; then
    echo "building the archive: behind rt ci in a few minutes; else that proves all that it stands on, in under half an hour"
    check "building the archive" build_archive || end
    ARCHIVE=$here/../crates/bindingclay/out/libbindingclay.a
fi
export ARCHIVE
# shellcheck disable=SC1091
. "$here/tests/release.sh"
if [ "${1:-}" = release ]; then
    try_release
    end
fi
check "installing" "$here/install.sh" "$work/prefix" || end
# shellcheck disable=SC1091
. "$here/tests/shared.sh"
# shellcheck disable=SC1091
. "$here/tests/preload.sh"
# shellcheck disable=SC1091
. "$here/tests/machines.sh"
if [ "${1:-}" = preload ]; then
    try_preload
    end
fi
check "the names of the archive" defines_only libbindingclay.a bindingclay.h
check "what the archive wants" wants_little
for front in shared shared_helgrind; do
    if [ -f "$work/prefix/lib/libbindingclay_$front.a" ]; then
        check "the names of libbindingclay_$front.a" defines_only "libbindingclay_$front.a" bindingclay_shared.h
    else
        echo "passed over: the names of libbindingclay_$front.a"
    fi
done

counted=-Wl,--wrap=malloc,--wrap=realloc,--wrap=free
for name in processes pipes packets packet_waits descriptors files fifos splices polls waiting progress progress_cases facts sizes limits tables; do
    build "$name" && run "$name"
done
build memory "$counted" && run memory
build index_memory "$counted" && run index_memory
build left_behind && run left_behind && sed 's/^/left_behind: /' "$work/log"
build storms "$counted" && run storms 500 && plainly storms 20000
build queues_drawn "$counted" && plainly queues_drawn 100000 && under_valgrind queues_drawn 10000
for name in growth growth_waits; do
    if build "$name" "$counted"; then
        plainly "$name" 65536 && sed "s/^/$name: /" "$work/log"
        under_valgrind "$name" 600
    fi
done
if build budget "$counted"; then
    plainly budget 100000 && sed 's/^/budget: /' "$work/log"
    under_valgrind budget 2000
fi
if [ -f "$work/prefix/lib/libbindingclay_allocator.a" ]; then
    check "the names of the archive with an allocator" \
        defines_only libbindingclay_allocator.a bindingclay.h bindingclay_shared.h bindingclay_allocator.h
    check "what is behind the archive with an allocator" finds_each_allocator
    # helgrind doesn't know the lock of the front
    check "building allocator" "$cc" -Wall -Wextra -Werror -std=c11 -O1 -g "-I$work/prefix/include" -o "$work/allocator" \
        "$here/tests/allocator.c" "-L$work/prefix/lib" -lbindingclay_allocator -pthread "$counted" && run allocator &&
        without_races allocator kernels
    if is_there "$cxx"; then
        printf '#include <bindingclay_allocator.h>\n#include <bindingclay_shared.h>\n%s\n' \
            'int main() { bc_shared *shared; return bc_shared_open_with(nullptr, nullptr, &shared); }' > "$work/allocator.cpp"
        check "the header of an allocator in C++" "$cxx" -Wall -Wextra -Werror -std=c++11 "-I$work/prefix/include" -o "$work/allocator_in_cpp" \
            "$work/allocator.cpp" "-L$work/prefix/lib" -lbindingclay_allocator -pthread
    else
        echo "passed over: the header of an allocator in C++"
    fi
else
    echo "passed over: allocator"
fi
for name in one_lock two_kernels; do
    build "$name" "$counted" -pthread && run "$name" && without_races "$name"
done

try_front
try_preload
try_machines

if is_there python3; then
    check "the documents" env "PREFIX=$work/prefix" "PIPERUN=$piperun" "CC=$cc" python3 -B "$here/../docs/check" \
        && sed -n '/^passed over/p; $s/^/documents: /p' "$work/log"
else
    echo "passed over: the documents"
fi

check "the list of scripts" lists_what_is_there
# the scripts of the list, and those within other limits than the usual ones, are the arguments from here on
set --
while IFS= read -r name; do
    set -- "$@" "$examples/$name.script"
done < "$examples/scripts"
set -- "$@" "$here"/tests/other_limits/*.script
if build scripts "$counted"; then
    # each request for memory is refused in turn in scripts that make at most 400, and the first 200 in longer ones: under valgrind, which takes
    # longer, in short ones alone
    plainly scripts 400 200 "$@" && sed 's/^/scripts: /' "$work/log"
    under_valgrind scripts 12 0 "$@"
fi
# shellcheck disable=SC1091
. "$here/tests/records.sh"
try_records "$@"

try_release
if [ -x "$piperun" ]; then
    try_piperun
    try_live
else
    echo "passed over: piperun"
fi

# each row has to have figures, and they may be any above 0
if is_there python3; then
    check "what calls cost" env "PREFIX=$work/prefix" "PIPERUN=$piperun" "CC=$cc" timeout 300 python3 -B "$here/bench" --quick \
        && sed -n '/^passed over/p; $s/^/what calls cost: /p' "$work/log"
else
    echo "passed over: what calls cost"
fi

if is_there "$cxx"; then
    check "building header.cpp" "$cxx" -Wall -Wextra -Werror -std=c++11 "-I$work/prefix/include" -o "$work/header" \
        "$here/tests/header.cpp" "-L$work/prefix/lib" -lbindingclay && run header
else
    echo "passed over: header.cpp"
fi

if is_there "$rustc"; then
    # what Rust keeps of its own until the end of a program is still reachable
    leaks=definite,indirect,possible
    check "building client.rs" "$rustc" --edition 2021 -D warnings -O -o "$work/client" "$here/tests/client.rs" \
        -L "$work/prefix/lib" -l static=bindingclay && run client
    check "building the wrapper for Rust" "$rustc" --edition 2021 -D warnings -O --crate-type rlib --crate-name bindingclay \
        -o "$work/libbindingclay.rlib" "$here/rust/bindingclay.rs"
    # what runs Rust's tests has blocks of which valgrind finds the inside alone; helgrind knows no lock of Rust's own
    leaks=definite,indirect
    build_in_rust shared && run shared
    build_in_rust shared_tasks && run shared_tasks
    build_in_rust shared_parking && run shared_parking
    build_in_rust shared_vectored && run shared_vectored
    build_in_rust shared_wakers && run shared_wakers
    build_in_rust shared_writes && run shared_writes
    build_in_rust shared_storm && plainly shared_storm
    if build_in_rust shared_record; then
        BINDINGCLAY_RECORD=$work/rust.record && export BINDINGCLAY_RECORD
        run shared_record
        if [ -x "$piperun" ]; then
            check "the record of a storm in Rust" "$piperun" --check "$work/rust.record" && sed 's/^/record of a storm in Rust: /' "$work/log"
        else
            echo "passed over: the record of a storm in Rust"
        fi
    fi
else
    echo "passed over: client.rs, and the tests of the shared kernel in Rust"
fi

check "building example" "$cc" -Wall -Wextra -Werror -std=c11 "-I$work/prefix/include" -o "$work/example" "$here/example.c" \
    "-L$work/prefix/lib" -lbindingclay && check "example" example_prints_what_it_should
check "building example_loop" "$cc" -Wall -Wextra -Werror -std=c11 "-I$work/prefix/include" -o "$work/example_loop" \
    "$here/example_loop.c" "-L$work/prefix/lib" -lbindingclay && check "example_loop" loop_prints_what_it_should "$work/example_loop" &&
    under_valgrind example_loop
check "building example_record" "$cc" -Wall -Wextra -Werror -std=c11 "-I$work/prefix/include" -o "$work/example_record" \
    "$here/example_record.c" "-L$work/prefix/lib" -lbindingclay && under_valgrind example_record
if [ -x "$piperun" ]; then
    check "the record of example_record" example_record_passes
else
    echo "passed over: the record of example_record"
fi
if is_there pkg-config; then
    check "building example with pkg-config" build_by_pkg_config && check "example by pkg-config" example_prints_what_it_should
else
    echo "passed over: example with pkg-config"
fi
end
