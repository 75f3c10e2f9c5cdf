# Checks each record of a folder by piperun: bats records.bats
#
# RECORDS is the folder, without it records beside this file. PIPERUN is the program, as for tap.sh, which does the work.

@test "all replies are as recorded" {
    run "$BATS_TEST_DIRNAME/tap.sh" "${RECORDS:-$BATS_TEST_DIRNAME/records}"
    printf '%s\n' "$output"
    [ "$status" -eq 0 ]
}
