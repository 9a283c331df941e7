#!/usr/bin/env bash
# Sourced by bad_input.sh and bad_files.sh: finds the program that TKCORE names, or that
# tools/build_program built, makes a folder for files, and defines how a case runs. Each case has 120
# seconds and 800 MB of address space. A script prints a line for each case, and exits with status 1
# at the first that differs.
set -u
cd "$(dirname "$0")/../../crates/tkcore" || exit 1
export program=${TKCORE-$PWD/../../dist/bin/tkcore} row=$PWD/stdin opening='open,32,16777216,24,0,1700000000,0'
work=$(mktemp -d)
export work
trap 'rm -rf "$work"' EXIT

# gives a case the file 4: a pipe that nobody reads any more
mkfifo "$work/pipe"
unread='exec 3<>$work/pipe 4>$work/pipe 3<&-;'

# NAME STATUS FAULT LINES LAST COMMAND: the command must exit with STATUS, write FAULT (or nothing)
# to standard error, and LINES lines to standard output, of which LAST is the last
expect() {
    local fault=${3:+tkcore: $3} got
    (ulimit -v 800000 && exec timeout 120 bash -c "$6") >"$work/out" 2>"$work/err"
    got="$? '$(cat "$work/err")' $(wc -l <"$work/out") '$(tail -n 1 "$work/out")'"
    if [ "$got" != "$2 '$fault' $4 '$5'" ]; then
        printf 'differs: %s\n  wanted: %s\n  got:    %s\n' "$1" "$2 '$fault' $4 '$5'" "$got"
        exit 1
    fi
    echo "as it should be: $1"
}

# NAME FAULT COMMAND: the command must exit with status 1 and this fault, and write no output
stops() { expect "$1" 1 "$2" 0 '' "$3"; }

# BYTE COUNT: writes COUNT copies of the byte
bytes() { head -c "$2" /dev/zero | tr '\0' "$1"; }

words='words refused'
# the usage that follows refused arguments: its number of lines, and the last one
usage_lines=12 usage_end='The manual page tkcore(1) describes scripts, reports and faults.'
