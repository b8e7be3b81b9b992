# shellcheck shell=bash
# Sourced by the bash scripts of tests/: how results are counted and printed.
passed=0
failed=0

# count STATUS NAME [MORE]: counts a check by a status. One that fails is printed, with MORE.
count() {
    if [ "$1" -eq 0 ]; then
        passed=$((passed + 1))
    else
        failed=$((failed + 1))
        echo "failed: $2${3:+: $3}"
    fi
}

# adds FILE: prints what another script printed, and adds its checks, which its last line counts.
adds() {
    local last
    last=$(tail -n 1 "$1")
    if [[ $last =~ ^([0-9]+)\ passed,\ ([0-9]+)\ failed$ ]]; then
        passed=$((passed + BASH_REMATCH[1]))
        failed=$((failed + BASH_REMATCH[2]))
        head -n -1 "$1"
    else
        count 1 "its last line has its counts" "$(tail -n 3 "$1")"
    fi
}

# not_tried WHAT WHY: reports what this machine cannot try.
not_tried() { echo "not tried: $1: $2"; }

# takes_programs FOLDER: ends the script if no program may be executed in a folder.
takes_programs() {
    printf '#!/bin/sh\n' > "$1/script" && chmod 755 "$1/script" && "$1/script" 2> /dev/null && rm "$1/script" && return
    echo "no program may be executed in $1: TMPDIR may name another folder" >&2
    exit 2
}

# ends: prints the last line, which bin/test reads, and ends the script.
ends() {
    echo "$passed passed, $failed failed"
    [ "$failed" -eq 0 ]
    exit
}
