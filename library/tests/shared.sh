# The checks of the front for threads, which check.sh takes in: its tests as they are, under valgrind, and as the sanitizers of the compiler build
# them; and the programs of programs/, over the host and over the front.
# shellcheck shell=sh
# What is here is given to check, and its words are those of check.sh.
# shellcheck disable=SC2317,SC2154

strict='-std=c11 -Wall -Wextra -Werror -g'
# the functions that a test wraps, as a flag of the linker
wraps=

# build_front NAME FLAG..: builds tests/NAME.c over what is installed.
build_front() {
    built=$1
    shift
    # shellcheck disable=SC2086 # $strict is several words, and $wraps may be none
    check "building $built" "$cc" $strict -O1 "-I$work/prefix/include" -o "$work/$built" "$here/tests/$built.c" \
        "-L$work/prefix/lib" -lbindingclay_shared -lbindingclay -pthread $wraps "$@"
}

# can_sanitize WORD: whether what the compiler builds with -fsanitize=WORD runs here.
can_sanitize() {
    printf 'int main(void) { return 0; }\n' > "$work/nothing.c"
    "$cc" "-fsanitize=$1" -o "$work/nothing" "$work/nothing.c" > "$work/log" 2>&1 && "$work/nothing" > "$work/log" 2>&1
}

# sanitized NAME WORD ARGUMENT..: builds a test and the front with -fsanitize=WORD, and runs it.
sanitized() {
    name=$1
    word=$2
    shift 2
    if ! can_sanitize "$word"; then
        echo "passed over: $name with -fsanitize=$word"
        return
    fi
    # shellcheck disable=SC2086
    check "building $name with -fsanitize=$word" "$cc" $strict -O1 "-fsanitize=$word" "-I$work/prefix/include" -o "$work/sanitized" \
        "$here/tests/$name.c" "$here"/blocking/*.c "-L$work/prefix/lib" -lbindingclay -pthread $wraps &&
        check "$name with -fsanitize=$word" timeout 300 "$work/sanitized" "$@"
}

# without_races_of_front NAME ARGUMENT..: builds a test and the front for helgrind, and looks for races. There the lock goes without what helgrind doesn't know.
without_races_of_front() {
    name=$1
    shift
    # shellcheck disable=SC2086
    check "building $name for helgrind" "$cc" $strict -O1 -DBC_FOR_HELGRIND "-I$work/prefix/include" -o "$work/races_in_$name" \
        "$here/tests/$name.c" "$here"/blocking/*.c "-L$work/prefix/lib" -lbindingclay -pthread $wraps && without_races "races_in_$name" "$@"
}

# silent_under TOOL: whether a tool of valgrind's says nothing of a program without races, over what is installed for it.
silent_under() {
    timeout 300 "$valgrind" -q "--tool=$1" --error-exitcode=99 "--log-file=$work/said" "$work/clean" || { cat "$work/said"; return 1; }
    [ ! -s "$work/said" ]
}

# over_both NAME ARGUMENT..: whether a program over the host prints what it prints over the front.
over_both() {
    name=$1
    shift
    # shellcheck disable=SC2086
    "$cc" $strict -O2 -DOVER_HOST -o "$work/over_host" "$here/programs/$name.c" -pthread || return 1
    # shellcheck disable=SC2086
    "$cc" $strict -O2 "-I$work/prefix/include" -o "$work/over_front" "$here/programs/$name.c" "-L$work/prefix/lib" \
        -lbindingclay_shared -lbindingclay -pthread || return 1
    timeout 300 "$work/over_host" "$@" > "$work/of_host" || return 1
    timeout 300 "$work/over_front" "$@" > "$work/of_front" || return 1
    [ -s "$work/of_host" ] && diff "$work/of_host" "$work/of_front"
}

# storm_is_recorded: whether piperun answers the record of a storm as it tells.
storm_is_recorded() {
    timeout 120 "$work/shared_storm" 1 "$work/storm.record" || return 1
    replies=$(grep -c '^# => ' "$work/storm.record")
    told=$("$piperun" --check "$work/storm.record")
    echo "$told, of $replies"
    [ "$told" = "$replies replies as recorded" ] && [ "$replies" -gt 1000 ]
}

try_front() {
    if [ ! -f "$work/prefix/lib/libbindingclay_shared.a" ]; then
        echo "passed over: the front for threads"
        return
    fi
    for name in shared shared_waits shared_record; do
        build_front "$name" && run "$name"
        without_races_of_front "$name"
        for word in thread address,undefined; do
            sanitized "$name" "$word"
        done
    done
    wraps=-Wl,--wrap=pthread_mutex_unlock
    if build_front shared_close; then
        plainly shared_close
        under_valgrind shared_close 5
        without_races_of_front shared_close 5
        sanitized shared_close thread
        sanitized shared_close address,undefined
    fi
    wraps=
    build_front shared_memory "$counted,--wrap=calloc" && run shared_memory
    if build_front shared_crowd; then
        plainly shared_crowd 200
        under_valgrind shared_crowd
        without_races_of_front shared_crowd
        sanitized shared_crowd thread 20
        sanitized shared_crowd address,undefined 20
    fi
    if build_front shared_storm; then
        plainly shared_storm 5 && sed 's/^/storm: /' "$work/log"
        under_valgrind shared_storm 1
        without_races_of_front shared_storm
        if [ -x "$piperun" ]; then
            check "the record of a storm" storm_is_recorded && sed 's/^/record of a storm: /' "$work/log"
        else
            echo "passed over: the record of a storm"
        fi
        sanitized shared_storm thread 5
        sanitized shared_storm address,undefined 1
    fi
    # shellcheck disable=SC2086
    check "building shared_clean" "$cc" $strict -O1 "-I$work/prefix/include" -o "$work/clean" "$here/tests/shared_clean.c" \
        "-L$work/prefix/lib" -lbindingclay_shared_helgrind -lbindingclay -pthread && check "shared_clean" timeout 120 "$work/clean" &&
        for tool in helgrind drd; do
            if is_there "$valgrind"; then
                check "what $tool says of a program without races" silent_under "$tool"
            else
                echo "passed over: what $tool says of a program without races"
            fi
        done
    if is_there "$cxx"; then
        printf '#include <bindingclay_shared.h>\nint main() { bc_shared *shared; return bc_shared_open(nullptr, &shared); }\n' > "$work/front.cpp"
        check "the header of the front in C++" "$cxx" -Wall -Wextra -Werror -std=c++11 "-I$work/prefix/include" -o "$work/front" \
            "$work/front.cpp" "-L$work/prefix/lib" -lbindingclay_shared -lbindingclay -pthread
    else
        echo "passed over: the header of the front in C++"
    fi
    for name in logger two_consumers job_pool self_pipe shell; do
        check "$name over both" over_both "$name"
    done
    # 681,000 lines are 10 MiB, and 6,810,000 are 100 MiB
    check "pipeline over both" over_both pipeline "${PIPELINE_LINES:-681000}"
}
