# The checks of piperun, which check.sh takes in: its words, its faults with their lines and statuses, and what it prints of scripts, as
# docs/RULES.md has them in "Scripts" and in "The program".
# shellcheck shell=sh
# What is here is given to check, and its words are those of check.sh.
# shellcheck disable=SC2317,SC2154

# piperun_answers STATUS OUTPUT COMPLAINT ARGUMENT..: whether piperun, given these arguments, ends with the status, prints what is in the
# file OUTPUT, and to standard error the line COMPLAINT, or nothing where that is empty.
piperun_answers() {
    wanted=$1
    output=$2
    complaint=$3
    shift 3
    ended=0
    "$piperun" "$@" < /dev/null > "$work/output" 2> "$work/complaint" || ended=$?
    diff "$output" "$work/output" || return 1
    if [ -n "$complaint" ]; then printf '%s\n' "$complaint"; fi | diff - "$work/complaint" || return 1
    [ "$ended" -eq "$wanted" ] || { echo "it ended with $ended, and not $wanted"; return 1; }
}

# ended_with STATUS COMPLAINT: whether $ended, with which piperun ended, is the status, and what it printed to standard error the line COMPLAINT.
ended_with() {
    printf '%s\n' "$2" | diff - "$work/complaint" || return 1
    [ "$ended" -eq "$1" ] || { echo "it ended with $ended, and not $1"; return 1; }
}

# Whether piperun says that it can't write to a device that takes no byte. It does so of little output, of much and of its help text, and also
# where the script has a bad line. It says the same of a pipe that nobody reads.
piperun_cannot_write() {
    for script in "$examples/session.script" "$here/tests/bad_line.script" "$work/much.script" --help; do
        ended=0
        "$piperun" "$script" < /dev/null > /dev/full 2> "$work/complaint" || ended=$?
        ended_with 1 'piperun: cannot write' || return 1
    done
    # the output is more than a pipe holds, so that it meets the end of its reader
    { ended=0; "$piperun" "$work/much.script" < /dev/null 2> "$work/complaint" || ended=$?; echo "$ended" > "$work/ended"; } | true
    ended=$(cat "$work/ended")
    ended_with 1 'piperun: cannot write'
}

# Whether piperun says so too where a file takes a part of its output and no more, and whether just that part was written: the file may have
# 64 blocks, of 512 bytes or of 1,024.
piperun_writes_a_part() {
    ended=0
    (
        trap '' XFSZ
        ulimit -f 64
        exec "$piperun" "$work/much.script"
    ) < /dev/null > "$work/output" 2> "$work/complaint" || ended=$?
    ended_with 1 'piperun: cannot write' || return 1
    written=$(wc -c < "$work/output")
    case $written in
    32768 | 65536) head -c "$written" "$work/much.out" | cmp - "$work/output" ;;
    *) echo "it wrote $written bytes"; return 1 ;;
    esac
}

# Whether piperun ends with the status of a fault of which it can't print the line.
piperun_ends_unheard() {
    ended=0
    "$piperun" "$here/tests/bad_line.script" < /dev/null > "$work/output" 2> /dev/full || ended=$?
    sed 's/parked 7/parked 1/' "$here/tests/bad_line.out" | diff - "$work/output" || return 1
    [ "$ended" -eq 3 ] || { echo "it ended with $ended, and not 3"; return 1; }
}

# Whether piperun takes its script from standard input where no file is named, and says so where that can't be read.
piperun_takes_standard_input() {
    "$piperun" < "$examples/session.script" > "$work/output" || return 1
    diff "$examples/session.out" "$work/output" || return 1
    ended=0
    "$piperun" < "$work" > "$work/output" 2> "$work/complaint" || ended=$?
    diff /dev/null "$work/output" && ended_with 1 'piperun: cannot read'
}

# Whether piperun says that it can't read, and has printed nothing, where it has read lines before: they come through a socket, whose other end
# is closed with bytes in it that nobody read.
piperun_cannot_read_on() {
    ended=0
    python3 -B - "$piperun" > "$work/output" 2> "$work/complaint" << 'END' || ended=$?
import socket, subprocess, sys
reader, writer = socket.socketpair()
reader.send(b"not read")
writer.send(b"start\n1 pipe\n")
writer.close()
sys.exit(subprocess.run([sys.argv[1]], stdin=reader).returncode)
END
    diff /dev/null "$work/output" && ended_with 1 'piperun: cannot read'
}

# piperun_reads_the_longest FIRST OUTPUT: whether piperun runs a script of 16,777,216 bytes, of which the lines FIRST print OUTPUT and the
# others are one comment; and whether it says that one more byte is too many, and runs no line. It reads a file, and a pipe.
piperun_reads_the_longest() {
    { printf '%b' "$1"; head -c 16777216 /dev/zero | tr '\0' '#'; } | head -c 16777216 > "$work/longest.script"
    { cat "$work/longest.script"; printf '#'; } > "$work/longer.script"
    printf '%b' "$2" > "$work/longest.out"
    too_long='piperun: script longer than 16777216 bytes'
    piperun_answers 0 "$work/longest.out" '' "$work/longest.script" || return 1
    piperun_answers 3 /dev/null "$too_long" "$work/longer.script" || return 1
    # shellcheck disable=SC2002
    cat "$work/longest.script" | "$piperun" > "$work/output" && diff "$work/longest.out" "$work/output" || return 1
    ended=0
    # shellcheck disable=SC2002
    cat "$work/longer.script" | "$piperun" > "$work/output" 2> "$work/complaint" || ended=$?
    diff /dev/null "$work/output" && ended_with 3 "$too_long"
}

# piperun_answers_lines FILE HEADER COUNT: whether piperun prints for each line of tests/FILE what stands beside it, behind a first line HEADER
# where that isn't empty, and runs no line that is bad. There have to be so many lines.
piperun_answers_lines() {
    tried=0
    wrong=0
    printf 'start\n1 pipe\n' > "$work/front.script"
    [ -z "$2" ] || printf '%s\nstart\n1 pipe\n' "$2" > "$work/front.script"
    number=$(($(wc -l < "$work/front.script") + 1))
    while IFS= read -r row; do
        case $row in '#'*) continue ;; esac
        said=${row#* => }
        { cat "$work/front.script"; printf '%b\n' "${row%% => *}"; } > "$work/line.script"
        printf 'pid 1\nfds 0 1\n' > "$work/line.out"
        if [ "$said" = bad ]; then
            piperun_answers 3 "$work/line.out" "piperun: line $number: not a command" "$work/line.script"
        else
            printf '%s\n' "$said" >> "$work/line.out"
            piperun_answers 0 "$work/line.out" '' "$work/line.script"
        fi || { echo "that was: $row"; wrong=1; }
        tried=$((tried + 1))
    done < "$here/tests/$1"
    [ "$tried" -ge "$3" ] && [ "$wrong" -eq 0 ]
}

# first_line_makes VERSION SCRIPT: whether a script that begins so, in which \n and \r stand for bytes, is of version 1 or 2, or, with bad in
# place of a version, has a bad first line. A pipe of packets tells.
first_line_makes() {
    printf '%b' "$2" > "$work/first_line.script"
    case $1 in
    bad) : > "$work/first_line.out" ;;
    *) printf 'pid 1\n' > "$work/first_line.out" ;;
    esac
    [ "$1" != 2 ] || printf 'fds 0 1\n' >> "$work/first_line.out"
    case $1 in
    bad) piperun_answers 3 "$work/first_line.out" 'piperun: line 1: not a command' "$work/first_line.script" ;;
    1) piperun_answers 3 "$work/first_line.out" 'piperun: line 3: not a command' "$work/first_line.script" ;;
    2) piperun_answers 0 "$work/first_line.out" '' "$work/first_line.script" ;;
    esac || { echo "that was: $2"; return 1; }
}

piperun_tells_versions() {
    for header in 'piperun 2' 'piperun 2\r' 'piperun 2\n' 'piperun 2\r\n'; do
        printf '%b' "$header" > "$work/header.script"
        piperun_answers 0 /dev/null '' "$work/header.script" || { echo "that was: $header"; return 1; }
    done
    for header in 'piperun 2' 'piperun 2\r'; do
        first_line_makes 2 "$header\nstart\n1 pipe direct\n" || return 1
    done
    for header in ' piperun 2' 'piperun 2 ' 'piperun 2 \r' 'piperun  2' 'piperun\t2' 'piperun 2\r\r' 'piperun 22' 'piperun 02' 'piperun 1' \
        'piperun' 'Piperun 2' 'piperun 2 2'; do
        first_line_makes bad "$header\nstart\n1 pipe direct\n" || return 1
    done
    first_line_makes 1 '#piperun 2\nstart\n1 pipe direct\n' && first_line_makes 1 'start\n#piperun 2\npiperun 2\n'
}

# expanded FILE: its lines, in which the bytes of a line data may be pieces joined by +, each digits or N*hh, with all digits written out.
expanded() {
    awk '
        function times(digits, n,    all) {
            for (all = ""; n > 0; n = int(n / 2)) {
                if (n % 2 == 1) all = all digits
                digits = digits digits
            }
            return all
        }
        /^data / {
            line = "data "
            count = split($2, pieces, "[+]")
            for (i = 1; i <= count; i++) line = line (split(pieces[i], parts, "[*]") == 2 ? times(parts[2], parts[1]) : pieces[i])
            print line
            next
        }
        { print }' "$1"
}

# answer_of_cut CUT LINE ANSWER: what CUT prints, a front of LINE, if LINE prints ANSWER; nothing if CUT is a bad line. A number that is cut is a
# smaller one, so that a read gives the first of the bytes. Of a write N*hh that is cut before the * each two digits of N are a byte.
answer_of_cut() {
    last=${1##* }
    case $1 in
    "$2") printf '%s\n' "$3" ;;
    '1 read 0 '[0-9]*) printf "%.$((5 + 2 * last))s\n" "$3" ;;
    [12]' write 1 '*[!0-9]*) ;;
    [12]' write 1 '[0-9]*) [ $((${#last} % 2)) -ne 0 ] || printf 'count %s\n' $((${#last} / 2)) ;;
    esac
}

# cuts_of_line NUMBER LINE ANSWER: whether piperun, of the lines in before.script and a front of LINE, prints what is in before.out and what that
# front does. Each front is tried.
cuts_of_line() {
    length=0
    while [ "$length" -le "${#2}" ]; do
        cut=$(printf "%.${length}s" "$2")
        said=$(answer_of_cut "$cut" "$2" "$3")
        { cat "$work/before.script"; printf %s "$cut"; } > "$work/cut.script"
        { cat "$work/before.out"; [ -z "$said" ] || printf '%s\n' "$said"; } > "$work/cut.out"
        if [ -z "$cut" ] || [ -n "$said" ]; then
            piperun_answers 0 "$work/cut.out" '' "$work/cut.script"
        else
            piperun_answers 3 "$work/cut.out" "piperun: line $1: not a command" "$work/cut.script"
        fi || { echo "the script was cut behind line $(($1 - 1)) and: $cut"; return 1; }
        length=$((length + 1))
    done
}

# A script is cut behind each of its bytes: whether piperun prints what the whole lines do, and then what the front of a line does that is left.
piperun_on_cut_scripts() {
    whole=$examples/sessions/turns/interleaving_with_a_large_write
    grep -v '^#' "$whole.script" > "$work/whole.script"
    expanded "$whole.out" > "$work/whole.out"
    : > "$work/before.script"
    : > "$work/before.out"
    lines=0
    while IFS= read -r line <&3 && IFS= read -r answer <&4; do
        lines=$((lines + 1))
        cuts_of_line "$lines" "$line" "$answer" || return 1
        printf '%s\n' "$line" >> "$work/before.script"
        printf '%s\n' "$answer" >> "$work/before.out"
    done 3< "$work/whole.script" 4< "$work/whole.out"
    # all lines were gone through
    diff "$work/whole.script" "$work/before.script" && diff "$work/whole.out" "$work/before.out" || return 1
    piperun_answers 0 "$work/whole.out" '' "$work/whole.script"
}

# Whether piperun, of 600 processes within 100,000 bytes, starts some and finds no memory for the others. Reading takes 65,536 of them, and gives
# them back. The list of the processes doubles, and its next doubling after 512 wants more than is left, so that enough stays for the output.
piperun_finds_no_memory() {
    "$piperun" --memory 100000 "$work/starts.script" < /dev/null > "$work/output" || return 1
    awk '/^pid / && !none && $2 == NR { next } /^nomem$/ && NR > 1 { none = 1; next } { wrong = 1 } END { exit wrong || !none || NR != 600 }' \
        "$work/output" || { cat "$work/output"; return 1; }
}

# within KIBIBYTES COMMAND..: runs the command in so much memory. A shell that limits itself has to hold the words within the limit too, and
# may want more memory than the command.
within() {
    if command -v prlimit > /dev/null; then
        bytes=$(($1 * 1024))
        shift
        prlimit --as="$bytes" "$@"
    else
        # shellcheck disable=SC3045
        (ulimit -v "$1" && shift && exec "$@")
    fi
}

# Whether piperun, given 1,000,000 bytes of words, says that it has no memory for them where its process may have little, and takes them where
# it may have more. They ask for its help text, so that nothing else takes memory. In how much a process begins depends on the machine, so
# the limit grows until it is enough. Where it is too little for that, no program runs.
piperun_has_no_memory_for_words() {
    word=$(head -c 100000 /dev/zero | tr '\0' w)
    set -- --help "$word" "$word" "$word" "$word" "$word" "$word" "$word" "$word" "$word" "$word"
    kibibytes=1000
    found_none=0
    while [ "$kibibytes" -le 40000 ]; do
        ended=0
        within "$kibibytes" "$piperun" "$@" < /dev/null > "$work/output" 2> "$work/complaint" || ended=$?
        case $ended in
        4)
            diff /dev/null "$work/output" && ended_with 4 'piperun: no memory' || return 1
            found_none=$((found_none + 1))
            ;;
        0)
            diff "$work/help" "$work/output" && [ "$found_none" -gt 0 ]
            return
            ;;
        esac
        kibibytes=$((kibibytes + 200))
    done
    echo "it doesn't take these words in 40,000 KiB"
    return 1
}

# says LINE ANSWER: adds a line to calls.script, and what it prints to calls.out.
says() {
    printf '%s\n' "$1" >> "$work/calls.script"
    printf '%s\n' "$2" >> "$work/calls.out"
}

# A call of process 2 that waits, of eight kinds. Its descriptors are the ends of an empty pipe and of a full one, and nobody writes to q.
call_that_waits() {
    case $(($1 % 8)) in
    0) echo '2 read 0 100' ;;
    1) echo '2 write 3 7a' ;;
    2) echo '2 write 3 70000*7a' ;;
    3) echo '2 splice 0 - 3 - 100' ;;
    4) echo '2 tee 0 3 100' ;;
    5) echo '2 poll wait 0:in 3:out' ;;
    6) echo '2 open q r' ;;
    7) echo '2 poll wait -1:in' ;;
    esac
}

# There is no call under the numbers from FIRST to LAST.
no_calls_say() {
    number=$1
    while [ "$number" -le "$2" ]; do
        says "resume $number" 'no call'
        says "interrupt $number" 'no call'
        number=$((number + 1))
    done
}

# piperun_ends_many_calls FIRST: whether of 200 waiting calls of one process, the first with the number FIRST, none is left behind its exit, also
# not for a process of the same pid; and whether the next waiting call has the number after theirs.
piperun_ends_many_calls() {
    : > "$work/calls.script"
    : > "$work/calls.out"
    next=$(($1 + 200))
    says start 'pid 1'
    says start 'pid 2'
    says '1 mkfifo q' ok
    says '2 pipe' 'fds 0 1'
    says '2 pipe' 'fds 2 3'
    says '2 write 3 65536*61' 'count 65536'
    call=$1
    while [ "$call" -lt "$next" ]; do
        says "$(call_that_waits "$call")" "parked $call"
        call=$((call + 1))
    done
    says '2 exit' ok
    no_calls_say "$1" "$next"
    says '1 open q w nonblock' ENXIO
    says start 'pid 2'
    no_calls_say "$1" "$next"
    says '2 pipe' 'fds 0 1'
    says '2 read 0 9' "parked $next"
    says "resume $next" "parked $next"
    says '2 write 1 61' 'count 1'
    says "resume $next" 'data 61'
    no_calls_say "$1" "$((next + 1))"
    piperun_answers 0 "$work/calls.out" '' --first-call "$1" "$work/calls.script"
}

# Whether piperun finds all replies of a script in the record that is made of it and its output, and each that isn't as it was recorded, with the
# number of its line.
piperun_checks_a_record() {
    awk 'FNR == NR { replies[++count] = $0; next } { print } !/^[ \t\r]*(#|$)/ { print "# => " replies[++asked] }' \
        "$examples/session.out" "$examples/session.script" > "$work/session.record"
    wc -l < "$examples/session.out" | tr -d ' ' | sed 's/$/ replies as recorded/' > "$work/as_recorded"
    piperun_answers 0 "$work/as_recorded" '' --check "$work/session.record" || return 1
    sed 's/^\(# => count .*\)/\17/' "$work/session.record" > "$work/changed.record"
    grep -n '^# => count ' "$work/changed.record" | sed 's/^\([0-9]*\):# => count \(.*\)7$/line \1\nexpected count \27\nanswered count \2/' > "$work/changed.out"
    differ=$(($(wc -l < "$work/changed.out") / 3))
    [ "$differ" -gt 1 ] || return 1
    complaint="piperun: $differ of $(wc -l < "$examples/session.out" | tr -d ' ') replies differ"
    piperun_answers 5 "$work/changed.out" "$complaint" --check --all "$work/changed.record" || return 1
    head -n 3 "$work/changed.out" > "$work/first.out"
    piperun_answers 5 "$work/first.out" "$complaint" --check "$work/changed.record" || return 1
    # what expects nothing is no record
    : > "$work/empty.record"
    piperun_answers 5 /dev/null 'piperun: no reply is expected' --check "$work/empty.record" || return 1
    piperun_answers 5 /dev/null 'piperun: no reply is expected' --check "$examples/session.script" || return 1
    # what only looks as if it expected a reply is a bad line of a check, and a comment of a run
    printf 'start\n# => pid 2\n#=> pid 1\n' > "$work/misspelt.record"
    piperun_answers 3 /dev/null 'piperun: line 3: not a command' --check "$work/misspelt.record" || return 1
    echo 'pid 1' > "$work/misspelt.out"
    piperun_answers 0 "$work/misspelt.out" '' "$work/misspelt.record"
}

# Whether a record's header sets the limits of its check, and is a comment to a run, and whether one that says what it can't is a bad line.
piperun_checks_within_a_header() {
    printf 'piperun 2\n# piperun --first-call 7 --waiting-max 1\nstart\n1 pipe\n1 fork\n1 read 0 1\n# => parked 7\n2 read 0 1\n# => EAGAIN\n' \
        > "$work/header.record"
    echo '2 replies as recorded' > "$work/as_recorded"
    piperun_answers 0 "$work/as_recorded" '' --check "$work/header.record" || return 1
    printf 'pid 1\nfds 0 1\npid 2\nparked 1\nparked 2\n' > "$work/header.out"
    piperun_answers 0 "$work/header.out" '' "$work/header.record" || return 1
    sed 's/--waiting-max 1/--waiting-max/' "$work/header.record" > "$work/bad_header.record"
    piperun_answers 3 /dev/null 'piperun: line 2: not a command' --check "$work/bad_header.record" || return 1
    piperun_answers 0 "$work/header.out" '' "$work/bad_header.record"
}

# Whether piperun keeps within the limits that its words name, in a run, a live run and a check, and whether a limit that a record names goes
# before them.
piperun_keeps_within_limits() {
    printf 'start\n1 pipe\n1 open a w creat\n1 open b w creat\n1 write 2 616263\n1 read 0 1\n1 read 0 1\n1 setsz 1 65537\n' > "$work/limits.script"
    printf '1 dup 0\n1 dup 0\n1 dup2 0 4\n1 dupfd 0 4\n' >> "$work/limits.script"
    printf 'pid 1\nfds 0 1\nfd 2\nENOSPC\ncount 2\nparked 7\nEAGAIN\nEPERM\nfd 3\nEMFILE\nEBADF\nEINVAL\n' > "$work/limits.out"
    set -- --first-call 7 --file-max 2 --names-max=1 --waiting-max 1 --capacity-max 65536 --descriptors-max 4 --spare-max 0
    piperun_answers 0 "$work/limits.out" '' "$@" "$work/limits.script" || return 1
    piperun_answers 0 "$work/limits.out" '' --live "$@" "$work/limits.script" || return 1
    paste -d '\n' "$work/limits.script" "$work/limits.out" | sed 'n;s/^/# => /' > "$work/limits.record"
    echo '12 replies as recorded' > "$work/as_recorded"
    piperun_answers 0 "$work/as_recorded" '' --check "$@" "$work/limits.record" || return 1
    { echo '# piperun --file-max 2'; cat "$work/limits.record"; } > "$work/named.record"
    piperun_answers 0 "$work/as_recorded" '' --check "$@" "$work/named.record" || return 1
    shift 4
    piperun_answers 0 "$work/as_recorded" '' --check --file-max 3 --first-call 7 "$@" "$work/named.record"
}

# Whether piperun refuses limits that are out of their range.
piperun_refuses_limits() {
    for limit in --file-max=16777217 --capacity-max=1048577 --descriptors-max=65537 --descriptions-max=1048577 --processes-max=65537 \
        --names-max=18446744073709551616 --spare-max=18446744073709551616 --waiting-max=-1 --waiting-max=two --processes-max=two \
        --waiting-of-each=18446744073709551616 --waiting-of-each=-1 --waiting-of-each; do
        piperun_answers 2 /dev/null 'piperun: bad command line' "$limit" "$examples/session.script" || return 1
    done
    piperun_answers 0 "$examples/session.out" '' --file-max 16777216 --capacity-max=1048576 --descriptors-max=65536 \
        --descriptions-max 1048576 --processes-max=65536 --names-max 18446744073709551615 --waiting-of-each=18446744073709551615 \
        "$examples/session.script"
}

# piperun_within_other_limits OPTION..: whether piperun prints of each script of tests/other_limits what stands beside it, by the options of
# NAME.args and these.
piperun_within_other_limits() {
    for script in "$here"/tests/other_limits/*.script; do
        named=${script%.script}
        # shellcheck disable=SC2046 # a word a line
        piperun_answers 0 "$named.out" '' "$@" $(cat "$named.args") "$script" || { echo "that was: $named"; return 1; }
    done
}

# Whether a record's header names these limits too, whether those of the words count if it names none, and whether it is bad if one is too great.
piperun_checks_within_limits_of_tables() {
    printf 'start\n# => pid 1\nstart\n# => EAGAIN\n1 open f rw creat\n# => fd 0\n1 open f r\n# => ENFILE\n1 dupfd 0 300\n# => fd 300\n' > "$work/tables.record"
    set -- --descriptors-max 301 --descriptions-max 1 --processes-max 1
    echo '5 replies as recorded' > "$work/as_recorded"
    piperun_answers 0 "$work/as_recorded" '' --check "$@" "$work/tables.record" || return 1
    { echo "# piperun $*"; cat "$work/tables.record"; } > "$work/named.record"
    piperun_answers 0 "$work/as_recorded" '' --check "$work/named.record" || return 1
    piperun_answers 0 "$work/as_recorded" '' --check --descriptors-max 9 --descriptions-max 9 --processes-max 9 "$work/named.record" || return 1
    for limit in '--descriptors-max 65537' '--descriptions-max 1048577' '--processes-max 65537' '--processes-max'; do
        { echo "# piperun $limit"; cat "$work/tables.record"; } > "$work/named.record"
        piperun_answers 3 /dev/null 'piperun: line 1: not a command' --check "$work/named.record" || return 1
    done
}

# The same of the limit on the waiting calls of each process.
piperun_checks_within_limits_of_waiting() {
    printf 'start\n# => pid 1\n1 fork\n# => pid 2\n1 poll wait\n# => parked 1\n1 poll wait\n# => EAGAIN\n2 poll wait\n# => parked 2\n' \
        > "$work/waiting.record"
    echo '5 replies as recorded' > "$work/as_recorded"
    piperun_answers 0 "$work/as_recorded" '' --check --waiting-of-each 1 "$work/waiting.record" || return 1
    { echo '# piperun --waiting-of-each 1'; cat "$work/waiting.record"; } > "$work/named.record"
    piperun_answers 0 "$work/as_recorded" '' --check --waiting-of-each=2 "$work/named.record" || return 1
    for limit in '--waiting-of-each' '--waiting-of-each -1' '--waiting-of-each 18446744073709551616'; do
        { echo "# piperun $limit"; cat "$work/waiting.record"; } > "$work/named.record"
        piperun_answers 3 /dev/null 'piperun: line 1: not a command' --check "$work/named.record" || return 1
    done
}

# Whether piperun tells its version, which is that of the library's header, and reads no script.
piperun_tells_its_version() {
    sed -n 's/^#define BINDINGCLAY_VERSION_[A-Z]* \([0-9]*\)$/\1/p' "$here/include/bindingclay.h" | paste -s -d . | sed 's/^/piperun /' > "$work/version"
    piperun_answers 0 "$work/version" '' --version || return 1
    piperun_answers 0 "$work/version" '' -V "$work/no_such_file" || return 1
    piperun_answers 2 /dev/null 'piperun: bad command line' -v
}

# Whether a live run answers a bad line so, and the lines beside it, or ends there if it is a strict one, in version 2 and without a last line feed.
piperun_runs_live() {
    printf 'piperun 2\nstart\nstrat\n1 pipe\n1 write 1 5*00\n1 read 0 9' > "$work/live.script"
    printf 'pid 1\nbad line\nfds 0 1\ncount 5\ndata 5*00\n' > "$work/live.out"
    piperun_answers 3 "$work/live.out" 'piperun: line 3: not a command
piperun: 1 bad lines' --live "$work/live.script" || return 1
    head -n 1 "$work/live.out" > "$work/strict.out"
    piperun_answers 3 "$work/strict.out" 'piperun: line 3: not a command' --live --strict "$work/live.script" || return 1
    sed 3d "$work/live.script" > "$work/good.script"
    sed 2d "$work/live.out" > "$work/good.out"
    piperun_answers 0 "$work/good.out" '' --live --strict "$work/good.script"
}

# tells_why FIRST BOTH: whether piperun prints nothing of $work/explained.script, and complains by the lines BOTH with --explain, and by the line
# FIRST without it; in a run, a check and a live run. A live run that goes on prints `bad line`.
tells_why() {
    piperun_answers 3 /dev/null "$1" "$work/explained.script" || return 1
    piperun_answers 3 /dev/null "$2" --explain "$work/explained.script" || return 1
    piperun_answers 3 /dev/null "$2" --check --explain "$work/explained.script" || return 1
    piperun_answers 3 /dev/null "$2" --live --strict --explain "$work/explained.script" || return 1
    echo 'bad line' > "$work/explained.out"
    piperun_answers 3 "$work/explained.out" "$2
piperun: 1 bad lines" --live --explain "$work/explained.script"
}

# explains ROW..: whether piperun tells of the script of each row SCRIPT => WORD: REASON that this word of its last line is wrong, and why. \n and
# \t stand for bytes, and no other line prints anything.
explains() {
    for row in "$@"; do
        printf '%b' "${row%% => *}" > "$work/explained.script"
        number=$(awk 'END { print NR }' "$work/explained.script")
        first="piperun: line $number: not a command"
        both="$first
line $number, word ${row##* => }"
        tells_why "$first" "$both" || { echo "that was: $row"; return 1; }
    done
}

# Whether piperun tells what is wrong with bad lines: with the first, or in a live run with each. Where no word is at fault, as in a header that
# names limits wrongly and in a line that is too long, there is no second line.
piperun_explains() {
    explains '1 write 4 abc => 4: an odd number of digits' '1 read x 5 => 3: not a descriptor' '1 read 3 => 4: missing: a number of bytes' \
        '1 fork now => 3: a word too many' '1 frob => 2: not a call' 'piperun 2\n# no call\n\t1  write 4 00+abc => 4: an odd number of digits' ||
        return 1
    printf 'start\n1 fork now\n1 pipe\n1 write 1 abc\n' > "$work/explained.script"
    printf 'pid 1\nbad line\nfds 0 1\nbad line\n' > "$work/explained.out"
    piperun_answers 3 "$work/explained.out" 'piperun: line 2: not a command
line 2, word 3: a word too many
piperun: line 4: not a command
line 4, word 4: an odd number of digits
piperun: 2 bad lines' --live --explain "$work/explained.script" || return 1
    printf '# piperun --none\n' > "$work/explained.script"
    piperun_answers 3 /dev/null 'piperun: line 1: not a command' --check --explain "$work/explained.script" || return 1
    { printf '1 '; head -c 33554500 /dev/zero | tr '\0' x; } > "$work/explained.script"
    piperun_answers 3 /dev/null 'piperun: line 1: not a command' --live --strict --explain "$work/explained.script" || return 1
    piperun_answers 0 "$examples/session.out" '' --explain "$examples/session.script"
}

# Whether a live run answers each line, also a bad one, before the next is said.
piperun_answers_at_once() {
    mkfifo "$work/asked" "$work/answered" || return 1
    "$piperun" --live < "$work/asked" > "$work/answered" 2> /dev/null &
    exec 3> "$work/asked" 4< "$work/answered"
    echo start >&3
    read -r first <&4
    echo strat >&3
    read -r second <&4
    echo '1 pipe' >&3
    read -r third <&4
    exec 3>&- 4<&-
    ended=0
    wait "$!" || ended=$?
    [ "$first" = 'pid 1' ] && [ "$second" = 'bad line' ] && [ "$third" = 'fds 0 1' ] && [ "$ended" -eq 3 ]
}

# The words of piperun, as docs/RULES.md has them in "The program".
try_piperun() {
    sed -n '/^pub const HELP/,/^";$/{//!p;}' "$here/../crates/pl_run/src/help.rt" > "$work/help"
    check "piperun on a bad line" piperun_answers 3 "$here/tests/bad_line.out" 'piperun: line 5: not a command' \
        --first-call 7 "$here/tests/bad_line.script"
    check "piperun on a file" piperun_answers 0 "$examples/session.out" '' "$examples/session.script"
    check "piperun on standard input" piperun_takes_standard_input
    check "piperun on no file" piperun_answers 1 /dev/null 'piperun: cannot read' "$work/no_such_file"
    check "piperun on a file that can't be read" piperun_answers 1 /dev/null 'piperun: cannot read' "$work"
    check "piperun on no name" piperun_answers 1 /dev/null 'piperun: cannot read' ''
    check "piperun on a name that is an option" piperun_answers 1 /dev/null 'piperun: cannot read' -- --help
    printf 'start\n1 pipe\n1 write 1 65536*61\n1 read 0 65536\n' > "$work/much.script"
    { printf 'pid 1\nfds 0 1\ncount 65536\ndata '; yes 61 | head -n 65536 | tr -d '\n'; echo; } > "$work/much.out"
    check "piperun on much output" piperun_answers 0 "$work/much.out" '' "$work/much.script"
    check "piperun where it can't write" piperun_cannot_write
    check "piperun where it can write a part" piperun_writes_a_part
    check "piperun where nobody hears of its fault" piperun_ends_unheard
    check "piperun with an unknown option" piperun_answers 2 /dev/null 'piperun: bad command line' --last-call 7
    check "piperun with no number" piperun_answers 2 /dev/null 'piperun: bad command line' --first-call seven
    check "piperun with an option and nothing behind it" piperun_answers 2 /dev/null 'piperun: bad command line' --first-call
    check "piperun with two numbers" piperun_answers 2 /dev/null 'piperun: bad command line' --first-call 7 --first-call 7
    check "piperun with an empty number" piperun_answers 2 /dev/null 'piperun: bad command line' --first-call ''
    check "piperun with a number below 0" piperun_answers 2 /dev/null 'piperun: bad command line' --first-call=-1
    check "piperun with two budgets" piperun_answers 2 /dev/null 'piperun: bad command line' --memory 7 --memory 7
    check "piperun with too large a budget" piperun_answers 2 /dev/null 'piperun: bad command line' --memory 18446744073709551616
    check "piperun with two files" piperun_answers 2 /dev/null 'piperun: bad command line' "$examples/session.script" \
        "$examples/session.script"
    check "piperun with a word that is no text" piperun_answers 2 /dev/null 'piperun: bad command line' "$(printf '\377')"
    check "piperun on a record" piperun_checks_a_record
    check "piperun on records with a header" piperun_checks_within_a_header
    check "piperun within limits" piperun_keeps_within_limits
    check "piperun with limits out of range" piperun_refuses_limits
    check "piperun within other limits" piperun_within_other_limits
    check "piperun on records within other limits" piperun_checks_within_limits_of_tables
    check "piperun on records within limits on waiting calls" piperun_checks_within_limits_of_waiting
    check "the version of piperun" piperun_tells_its_version
    check "piperun that is to tell all of no record" piperun_answers 2 /dev/null 'piperun: bad command line' --all "$examples/session.script"
    check "piperun on a live run" piperun_runs_live
    check "piperun that answers at once" piperun_answers_at_once
    check "piperun on a live run of the examples" piperun_answers 0 "$examples/session.out" '' --live "$examples/session.script"
    check "piperun that tells what is wrong" piperun_explains
    check "piperun that is to explain twice" piperun_answers 2 /dev/null 'piperun: bad command line' --explain --explain
    check "piperun that is to explain and to help" piperun_answers 0 "$work/help" '' --explain --help
    check "piperun that is to be strict in no live run" piperun_answers 2 /dev/null 'piperun: bad command line' --strict "$examples/session.script"
    check "piperun on a live check" piperun_answers 2 /dev/null 'piperun: bad command line' --live --check "$examples/session.script"
    check "the help text of piperun" piperun_answers 0 "$work/help" '' --help
    printf 'start\n1 pipe\n1 read 0 1\nresume 0\n' > "$work/first.script"
    printf 'pid 1\nfds 0 1\nparked 0\nparked 0\n' > "$work/first.out"
    check "piperun from call 0 on" piperun_answers 0 "$work/first.out" '' --first-call 0 "$work/first.script"
    printf 'pid 1\nfds 0 1\ncalls spent\nno call\n' > "$work/last.out"
    check "piperun where no number is left" piperun_answers 0 "$work/last.out" '' --first-call 18446744073709551615 "$work/first.script"
    check "piperun from a number in many digits" piperun_answers 3 "$here/tests/bad_line.out" 'piperun: line 5: not a command' \
        --first-call=+0000000000000000000000007 "$here/tests/bad_line.script"
    check "piperun with too large a number" piperun_answers 2 /dev/null 'piperun: bad command line' --first-call 18446744073709551616
    yes start | head -n 600 > "$work/starts.script"
    seq -f 'pid %.0f' 600 > "$work/starts.out"
    check "piperun within a budget" piperun_finds_no_memory
    check "piperun within enough memory" piperun_answers 0 "$work/starts.out" '' --memory 1000000 "$work/starts.script"
    check "piperun within too little for the script" piperun_answers 4 /dev/null 'piperun: no memory' --memory 65536 "$work/starts.script"
    check "piperun within no memory" piperun_answers 4 /dev/null 'piperun: no memory' --memory 0 "$work/starts.script"
    # 150,000 bytes are enough for the 60,000 of the write and what the pipe holds of them, but not for 120,000 digits beside the bytes read
    printf 'start\n1 pipe\n1 write 1 60000*61\n1 read 0 60000\nstart\n' > "$work/reads.script"
    printf 'pid 1\nfds 0 1\ncount 60000\n' > "$work/reads.out"
    check "piperun within too little for a line's output" piperun_answers 4 "$work/reads.out" 'piperun: no memory' --memory 150000 \
        "$work/reads.script"
    printf 'start\n1 pipe\n1 write 1 200000*61\nstart\n' > "$work/writes.script"
    printf 'pid 1\nfds 0 1\n' > "$work/writes.out"
    check "piperun within too little for a line" piperun_answers 4 "$work/writes.out" 'piperun: no memory' --memory 150000 \
        "$work/writes.script"
    # what is refused takes no memory, and a bad line is bad however much there is
    printf 'start\n1 pipe\n1 write 0 16777216*61\n1 write 9 16777216*61\n2 write 1 16777216*61\n1 write 1 16777217*61\n' \
        > "$work/refused.script"
    printf 'pid 1\nfds 0 1\nEBADF\nEBADF\nno process\n' > "$work/refused.out"
    check "piperun within too little for what is refused" piperun_answers 3 "$work/refused.out" 'piperun: line 6: not a command' \
        --memory 150000 "$work/refused.script"
    check "piperun within no number of bytes" piperun_answers 2 /dev/null 'piperun: bad command line' --memory 64k "$work/starts.script"
    check "piperun on each line by itself" piperun_answers_lines lines '' 100
    check "piperun on each line of version 2 by itself" piperun_answers_lines lines_2 'piperun 2' 60
    check "piperun on first lines" piperun_tells_versions
    check "piperun on a script that is cut" piperun_on_cut_scripts
    check "piperun on 200 calls of a process that exits" piperun_ends_many_calls 1
    check "piperun on 200 calls from call 0 on" piperun_ends_many_calls 0
    if is_there python3; then
        check "piperun where a later read fails" piperun_cannot_read_on
        check "piperun beside a model of the rules" timeout 300 python3 -B "$here/../tools/model/compare" "$piperun" 300
        check "piperun without memory, beside the model" timeout 300 python3 -B "$here/../tools/model/without_memory" "$piperun"
    else
        echo "passed over: piperun where a later read fails, and beside a model of the rules"
    fi
    check "piperun on the longest script" piperun_reads_the_longest '' ''
    check "piperun on the longest script with lines" piperun_reads_the_longest 'start\n1 pipe\n' 'pid 1\nfds 0 1\n'
    check "piperun without memory for its words" piperun_has_no_memory_for_words
    head -c 16000000 /dev/zero | tr '\0' '#' > "$work/long.script"
    # 12,000 KiB are too few for 16,000,000 bytes
    printf '#!/bin/sh\nulimit -v 12000\nexec "%s" "$@"\n' "$piperun" > "$work/piperun_with_little_memory"
    chmod +x "$work/piperun_with_little_memory"
    built_piperun=$piperun
    piperun=$work/piperun_with_little_memory
    check "piperun without memory for the script" piperun_answers 4 /dev/null 'piperun: no memory' "$work/long.script"
    piperun=$built_piperun
}
