# The checks of live runs from outside, and of records that were changed or cut, which check.sh takes in: what another program sees that talks
# with piperun, as docs/RULES.md has it in "Records" and in "Live runs".
# shellcheck shell=sh
# What is here is given to check, and its words are those of check.sh.
# shellcheck disable=SC2317,SC2154

# bytes_in_digits COUNT: so many bytes 61.
bytes_in_digits() {
    head -c "$1" /dev/zero | tr '\0' a | sed 's/a/61/g'
}

# Five lines, of 8,000 bytes and less, and the answers to the four that ask.
write_block() {
    digits=$(bytes_in_digits 4000)
    printf '1 write 1 %s\n1 read 0 4000\n# %s\n1 lseek 0 0 set\n1 write 7 %s\n' "$digits" "$digits" "$digits" > "$work/block"
    printf 'count 4000\ndata %s\nESPIPE\nEBADF\n' "$digits" > "$work/block.out"
}

# live_in_bounded_memory BYTES: whether a live run answers at least so many bytes of lines within 4,194,304 bytes, in a process that may have
# 16,000 KiB. What it prints is about a third as long.
live_in_bounded_memory() {
    write_block
    blocks=$(($1 / $(wc -c < "$work/block") + 1))
    { printf 'pid 1\nfds 0 1\n'; yes "$(cat "$work/block.out")" | head -n $((4 * blocks)); } | cksum > "$work/wanted_sum"
    { printf 'start\n1 pipe\n'; yes "$(cat "$work/block")" | head -n $((5 * blocks)); } | {
        # shellcheck disable=SC3045
        ulimit -v 16000 || exit 1
        ended=0
        "$piperun" --live --memory 4194304 2> "$work/complaint" || ended=$?
        echo "$ended" > "$work/ended"
    } | cksum > "$work/sum"
    diff /dev/null "$work/complaint" && diff "$work/wanted_sum" "$work/sum" && [ "$(cat "$work/ended")" -eq 0 ]
}

# Whether a line that is longer than a line may be is answered as a bad one, and isn't kept: it has 268,435,456 bytes, and the process may have 150,000 KiB.
live_on_too_long_a_line() {
    ended=0
    { echo start; head -c 268435456 /dev/zero | tr '\0' '#'; printf '\n1 pipe\n'; } | {
        # shellcheck disable=SC3045
        ulimit -v 150000 || exit 1
        exec "$piperun" --live
    } > "$work/output" 2> "$work/complaint" || ended=$?
    printf 'pid 1\nbad line\nfds 0 1\n' | diff - "$work/output" && ended_with 3 'piperun: line 2: not a command
piperun: 1 bad lines'
}

# Whether a line that the budget can't hold ends the run, behind the answers to the lines before it.
live_on_a_line_above_its_budget() {
    ended=0
    { echo start; head -c 5000000 /dev/zero | tr '\0' '#'; printf '\n1 pipe\n'; } |
        "$piperun" --live --memory 4194304 > "$work/output" 2> "$work/complaint" || ended=$?
    echo 'pid 1' | diff - "$work/output" && ended_with 4 'piperun: no memory'
}

# A record of FILE.script and FILE.out of the examples, in $work/whole.record.
make_record() {
    awk 'FNR == NR { replies[++count] = $0; next } { print } !/^[ \t\r]*(#|$)/ { print "# => " replies[++asked] }' \
        "$examples/$1.out" "$examples/$1.script" > "$work/whole.record"
}

# changed LINE: that line of the record on standard input with its last digit changed: the next one, and 0 for 9.
changed() {
    sed "$1"'{h;s/.*\([0-9]\)[^0-9]*$/\1/;y/0123456789/1234567890/;G;s/^\(.\)\n\(.*\)[0-9]\([^0-9]*\)$/\2\1\3/;}'
}

# difference LINE: what a check tells of that line of changed.record.
difference() {
    printf 'line %s\nexpected %s\nanswered %s\n' "$1" "$(sed -n "$1"'s/^# => //p' "$work/changed.record")" \
        "$(sed -n "$1"'s/^# => //p' "$work/whole.record")"
}

# Whether each answer of whole.record in which one digit is changed is found at its line, and two of them, the last one beside it, with --all.
changed_digits_are_found() {
    all=$(grep -c '^# => ' "$work/whole.record")
    numbers=$(grep -n '^# => .*[0-9]' "$work/whole.record" | cut -d : -f 1)
    last=${numbers##*
}
    tried=0
    for number in $numbers; do
        changed "$number" < "$work/whole.record" > "$work/changed.record"
        difference "$number" > "$work/told.out"
        piperun_answers 5 "$work/told.out" "piperun: 1 of $all replies differ" --check "$work/changed.record" || return 1
        [ "$number" -ne "$last" ] || continue
        changed "$last" < "$work/changed.record" > "$work/twice" && mv "$work/twice" "$work/changed.record"
        piperun_answers 5 "$work/told.out" "piperun: 2 of $all replies differ" --check "$work/changed.record" || return 1
        difference "$last" >> "$work/told.out"
        piperun_answers 5 "$work/told.out" "piperun: 2 of $all replies differ" --check --all "$work/changed.record" || return 1
        tried=$((tried + 1))
    done
    [ "$tried" -gt 10 ]
}

record_with_changed_digits() {
    make_record session && changed_digits_are_found
}

# Whether a record that is cut behind any of its lines passes up to there, if a reply is left, and one that is cut in an answer differs there, in its
# last line.
record_that_is_cut() {
    make_record session
    lines=$(wc -l < "$work/whole.record")
    kept=0
    while [ "$kept" -le "$lines" ]; do
        head -n "$kept" "$work/whole.record" > "$work/cut.record"
        compared=$(grep -c '^# => ' "$work/cut.record")
        if [ "$compared" -gt 0 ]; then
            echo "$compared replies as recorded" > "$work/cut.out"
            piperun_answers 0 "$work/cut.out" '' --check "$work/cut.record" || return 1
        else
            piperun_answers 5 /dev/null 'piperun: no reply is expected' --check "$work/cut.record" || return 1
        fi
        kept=$((kept + 1))
    done
    [ "$compared" -gt 10 ] || return 1
    last=$(grep -n '^# => ' "$work/whole.record" | tail -n 1 | cut -d : -f 1)
    printf %s "$(head -n "$last" "$work/whole.record" | sed '$s/.$//')" > "$work/changed.record"
    difference "$last" > "$work/told.out"
    piperun_answers 5 "$work/told.out" "piperun: 1 of $compared replies differ" --check "$work/changed.record"
}

try_live() {
    check "building coprocess" "$cc" -std=c11 -D_XOPEN_SOURCE=700 -Wall -Wextra -Werror -O1 -g -o "$work/coprocess" \
        "$here/tests/coprocess.c" && plainly coprocess "$piperun"
    if is_there python3; then
        check "a talk with piperun in Python" timeout 120 python3 -B "$here/tests/coprocess.py" "$piperun"
    else
        echo "passed over: a talk with piperun in Python"
    fi
    check "a live run of 256 MiB in bounded memory" live_in_bounded_memory 268435456
    check "a live run on too long a line" live_on_too_long_a_line
    check "a live run on a line above its budget" live_on_a_line_above_its_budget
    check "live runs within other limits" piperun_within_other_limits --live
    check "records with changed digits" record_with_changed_digits
    check "records that are cut" record_that_is_cut
}
