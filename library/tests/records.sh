# The checks of records from C, which check.sh takes in: what the programs of tests/ record is checked by piperun, where it is built.
# shellcheck shell=sh
# What is here is given to check, and its words are those of check.sh.
# shellcheck disable=SC2317,SC2154

# records_pass FOLDER LEAST: whether piperun answers each record of a folder as it tells, with as many replies as its list names, and whether there
# are so many records at least.
records_pass() {
    tried=0
    while read -r name count; do
        told=$("$piperun" --check "$1/$name.record" 2>&1)
        # a run without a step has no reply
        wanted='piperun: no reply is expected'
        [ "$count" -eq 0 ] || wanted="$count replies as recorded"
        if [ "$told" != "$wanted" ]; then
            echo "$name: $told, and not $count"
            return 1
        fi
        tried=$((tried + 1))
    done < "$1/list"
    echo "$tried records pass"
    [ "$tried" -ge "$2" ]
}

# record_of_c_with_changed_digits: whether each reply of a record from C in which a digit is changed is found at its line.
record_of_c_with_changed_digits() {
    cp "$work/records_of_calls/calls.record" "$work/whole.record" && changed_digits_are_found
}

# passes NAME FOLDER LEAST: tries the records of a folder, where there is piperun.
passes() {
    if [ -x "$piperun" ]; then
        check "$1" records_pass "$2" "$3" && sed "s/^/$1: /" "$work/log"
    else
        echo "passed over: $1"
    fi
}

# try_records SCRIPT..: with the scripts of the examples.
try_records() {
    mkdir "$work/records_of_calls" "$work/records_of_scripts" "$work/records_drawn_there" "$work/records_under_valgrind"
    build records && plainly records "$work/records_of_calls" && under_valgrind records "$work/records_under_valgrind"
    if build records_memory "$counted"; then
        plainly records_memory "$work/records_of_calls" && sed 's/^/records_memory: /' "$work/log"
        under_valgrind records_memory "$work/records_under_valgrind"
    fi
    passes "records of calls" "$work/records_of_calls" 6
    mkdir "$work/records_in_budgets"
    if build records_budget "$counted"; then
        plainly records_budget 2003 "$work/records_in_budgets" && sed 's/^/records_budget: /' "$work/log"
        under_valgrind records_budget 40009 "$work/records_under_valgrind"
    fi
    passes "records in budgets" "$work/records_in_budgets" 40
    if [ -x "$piperun" ]; then
        check "records of C with changed digits" record_of_c_with_changed_digits
    fi
    if build records_drawn; then
        plainly records_drawn 2000 "$work/records_drawn_there" && sed 's/^/records_drawn: /' "$work/log"
        under_valgrind records_drawn 40 "$work/records_under_valgrind"
    fi
    passes "records of drawn runs" "$work/records_drawn_there" 2000
    plainly scripts --record "$work/records_of_scripts" "$@" && sed 's/^/scripts: /' "$work/log"
    passes "records of scripts" "$work/records_of_scripts" 300
}
