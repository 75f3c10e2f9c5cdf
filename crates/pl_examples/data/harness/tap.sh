#!/bin/sh
# Checks each record of a folder by piperun, and reports as TAP: tap.sh [FOLDER]
#
# FOLDER has files NAME.script; without it, it is the folder records beside this file. PIPERUN is the program, without that piperun of the
# search path. A record fails if a reply differs, or if it expects none. The status is 1 if one failed.
folder=${1:-$(dirname -- "$0")/records}
piperun=${PIPERUN:-piperun}
number=0
status=0

set -- "$folder"/*.script
if [ ! -e "$1" ]; then
    echo "Bail out! There is no script in $folder"
    exit 1
fi
echo "1..$#"
for script; do
    number=$((number + 1))
    if said=$("$piperun" --check --all "$script" 2>&1); then
        echo "ok $number - $script"
        continue
    fi
    echo "not ok $number - $script"
    status=1
    # a difference is told by its line: here with the file before it
    printf '%s\n' "$said" | while IFS= read -r line; do
        case $line in
            "line "*) echo "# $script:${line#line }" ;;
            *) echo "# $line" ;;
        esac
    done
done
exit $status
