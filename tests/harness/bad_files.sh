#!/usr/bin/env bash
# Runs the built program on files that are missing, are no files, or have faults, with `trace`,
# `many` and `race`. It prints a line for each case, and exits with status 1 at the first that
# differs. The program is the one that TKCORE names, or that tools/build_program built.
set -u
# shellcheck source=expect.sh
. "$(dirname "$0")/expect.sh"

cd "$work" || exit 1
printf '%s\nfreq,0,65536000\nfreq,1000000000,-32768000\n' "$opening" >script
printf '0,1000000000\n1,1000000000\n2,1000000001\n' >stamps
: >empty
mkdir folder
trace='$program trace monotonic'

for given in 'trace' 'trace tai' 'trace tai script' 'trace tai script stamps more' 'trace TAI script stamps' \
    'trace utc script stamps' 'trace tai script --stamps' "trace tai script \$'\\377'" 'trace --help'; do
    expect "the words $given" 2 "$words" "$usage_lines" "$usage_end" \
        "\$program $given"
done
expect 'a trace' 0 '' 3 1000499964 "$trace script stamps"
expect 'a trace of a pipe' 0 '' 3 1000499964 "$trace <(cat script) <(cat stamps)"
# each name is opened once, the script first: a named pipe gives its bytes once
mkfifo script.pipe stamps.pipe
expect 'a trace of named pipes' 0 '' 3 1000499964 \
    "{ cat script >script.pipe; cat stamps >stamps.pipe; } & $trace script.pipe stamps.pipe"
expect 'many reports of named pipes' 0 '' 8 'ok,2,1.000499963' \
    "{ cat script >script.pipe; cat script >stamps.pipe; } & \$program many 2 script.pipe stamps.pipe"
expect 'a race of a named pipe' 0 '' 2 'actor,0,2,0' "{ cat script >script.pipe; } & \$program race 1000 script.pipe"
expect 'names behind two dashes' 0 '' 3 1000499964 'ln -s stamps ./-stamps && $program trace monotonic -- script -stamps'
expect 'standard input is left to others' 0 '' 4 'not read' "echo not read | { $trace script stamps; cat; }"

stops 'a missing script' 'cannot read' "$trace missing stamps"
stops 'missing stamps' 'cannot read' "$trace script missing"
stops 'missing stamps of a script with a fault' 'cannot read' "$trace stamps missing"
stops 'a name without a letter' 'cannot read' "$trace '' stamps"
stops 'a folder as script' 'cannot read' "$trace folder stamps"
stops 'a folder as stamps' 'cannot read' "$trace script folder"
stops 'a folder as stamps of a script with a fault' 'cannot read' "$trace stamps folder"
stops 'a file within a file' 'cannot read' "$trace script/script stamps"
stops 'the script twice' 'stamps: record 1: wrong number of fields' "$trace script script"
stops 'the stamps twice' 'script: record 1: not a valid opening' "$trace stamps stamps"
stops 'an empty script' 'script: no record' "$trace empty stamps"
stops 'an empty script and bad stamps' 'script: no record' "$trace empty script"
expect 'empty stamps' 0 '' 0 '' "$trace script empty"

stops 'stamps of one field' 'stamps: record 2: wrong number of fields' "$trace script <(printf '0,0\\n1\\n')"
stops 'a stamp below zero' 'stamps: record 1: not a number in range' "$trace script <(printf '1,-1\\n')"
stops 'a front past 64 bits' 'stamps: record 1: not a number in range' "$trace script <(echo 18446744073709551616,0)"
stops 'a front beyond the journal' 'item 3: unknown front' "$trace script <(cat stamps; echo 3,0)"
stops 'the greatest front' 'item 0: unknown front' "$trace script <(echo 18446744073709551615,0; cat stamps)"
stops 'a stamp above the mask' 'item 3: stamp above the mask' "$trace script <(cat stamps; echo 0,4294967296; echo 3,0)"
stops 'an unknown front before a stamp above the mask' 'item 0: unknown front' "$trace script <(echo 3,4294967296)"
stops 'a value out of range' 'item 1: value out of range' \
    "$trace <(echo open,64,4194304,0,0,0,0) <(printf '0,225563049316\\n0,225563049317\\n')"
expect 'a refused command counts for nothing' 1 'item 0: unknown front' 0 '' \
    "$trace <(cat script; echo tai,0,100001) <(echo 3,0)"

bytes '\n' 16777217 >large
bytes '\n' 16777216 >blank
stops 'a script of one byte too many' 'script: larger than 16777216 bytes' "$trace large stamps"
stops 'stamps of one byte too many' 'stamps: larger than 16777216 bytes' "$trace script large"
stops 'both of one byte too many' 'script: larger than 16777216 bytes' "$trace large large"
stops 'stamps without end' 'stamps: larger than 16777216 bytes' "$trace script <(yes '')"
expect 'stamps of empty lines' 0 '' 0 '' "$trace script blank"
yes 0,0 | head -n 4194304 >most
expect 'the most stamps' 0 '' 4194304 1700000000000000000 '$program trace realtime script most'
stops 'too little memory' 'out of memory' "ulimit -v 60000 && $trace script most"

stops 'a full disk' 'cannot write' "$trace script stamps >/dev/full"
stops 'no output' 'cannot write' "$trace script stamps >&-"
expect 'no input' 0 '' 3 1000499964 "$trace script stamps <&-"
stops 'a pipe that nobody reads' 'cannot write' "$unread $trace script stamps >&4"

printf '%s\nset,5,7\n' "$opening" >bad
for given in 'many' 'many 1' 'many 0 script' 'many 65 script' 'many +1 script' 'many 18446744073709551617 script' \
    'many x script' 'many script 1' "many 1 \$'\\377'" 'many --help'; do
    expect "the words $given" 2 "$words" "$usage_lines" "$usage_end" \
        "\$program $given"
done
for workers in 1 2 064; do
    expect "reports by $workers" 0 '' 8 'ok,2,1.000499963' "\$program many $workers script script"
done
expect 'a script with a fault' 1 '' 10 'ok,2,1.000499963' '$program many 2 script bad script'
expect 'its line' 0 '' 1 'fault,record 2: wrong number of fields' \
    '$program many 2 script bad script | sed -n 6p'
expect 'a file that is no script' 1 '' 2 'fault,record 1: not a valid opening' '$program many 2 stamps'
expect 'an empty file' 1 '' 2 'fault,no record' '$program many 2 empty'
expect 'a file of one byte too many' 1 '' 2 'fault,larger than 16777216 bytes' '$program many 1 large'
many='$program many 2'
stops 'a missing file before good ones' 'cannot read' "$many missing script script"
stops 'a missing file behind good ones' 'cannot read' "$many script script missing"
stops 'a missing file behind a bad one' 'cannot read' "$many bad missing"
stops 'a folder among good files' 'cannot read' "$many script folder script"
stops 'many on a full disk' 'cannot write' "$many script script >/dev/full"
stops 'a fault on a full disk' 'cannot write' "$many bad >/dev/full"
stops 'many without output' 'cannot write' "$many script >&-"
stops 'many with too little memory' 'out of memory' "ulimit -v 60000 && $many blank blank blank"
for given in 'race' 'race 1' 'race -1 script' 'race +1 script' 'race x script' 'race 18446744073709551616 script' \
    'race script 1' "race 1 \$'\\377'" 'race --help'; do
    expect "the words $given" 2 "$words" "$usage_lines" "$usage_end" \
        "\$program $given"
done
race='$program race 1000'
expect 'a race of one' 0 '' 2 'actor,0,2,0' "$race script"
expect 'a race of two' 0 '' 3 'actor,1,2,0' "$race script script"
expect 'their entries' 0 '' 1 'entries,4' "$race script script | sed -n 1p"
expect 'a race of 64' 0 '' 65 'actor,63,2,0' "$race \$(yes script | head -n 64)"
expect 'the largest step' 0 '' 2 'actor,0,0,2' '$program race 18446744073709551615 script'
stops 'a race of 65' 'count out of range' "$race \$(yes script | head -n 65)"
stops 'a missing file of 65' 'cannot read' "$race \$(yes script | head -n 64) missing"
stops 'a missing file before scripts that race' 'cannot read' "$race missing script"
stops 'a missing file behind scripts that race' 'cannot read' "$race script script missing"
stops 'a missing file before a bad one' 'cannot read' "$race missing bad"
stops 'a bad file before a missing one' 'file 0: record 2: wrong number of fields' "$race bad missing"
stops 'a folder in a race' 'cannot read' "$race script folder"
stops 'a fault in the second file' 'file 1: record 2: wrong number of fields' "$race script bad script"
stops 'an empty file in a race' 'file 0: no record' "$race empty script"
stops 'stamps in a race' 'file 1: record 1: not a valid opening' "$race script stamps"
stops 'a racing file of one byte too many' 'file 1: larger than 16777216 bytes' "$race script large"
echo open,8,256,0,1,0,0 >other
stops 'openings that differ' 'openings differ' "$race script other"
stops 'a fault behind openings that differ' 'file 2: record 2: wrong number of fields' "$race script other bad"
stops 'openings of 65 that differ' 'openings differ' "$race other \$(yes script | head -n 64)"
stops 'a race on a full disk' 'cannot write' "$race script script >/dev/full"
stops 'a race without output' 'cannot write' "$race script >&-"
# as many rows as fit in a script, more than a journal lists
{ echo "$opening" && yes tai,0,0 | head -n 2097147; } >most_rows
expect 'a race of the most rows' 0 '' 2 'actor,0,1048576,1048571' "$race most_rows"
expect 'a report of the most rows' 0 '' 2097148 'no,full' '$program <most_rows'
{ echo "$opening" && yes update,0 | head -n 1500000; } >long
stops 'a race with too little memory' 'out of memory' "ulimit -v 60000 && $race script long"
# a limit on processes doesn't bind root, so another user, who may start one process alone, runs it
if [ "$(id -u)" = 0 ]; then
    chmod -R a+rX "$work" && cp "$program" "$work/tkcore" && chmod a+rx "$work/tkcore" "$work"
    stops 'a thread that cannot be started' 'cannot start a thread' \
        "exec setpriv --reuid 61234 --regid 61234 --clear-groups bash -c 'ulimit -u 1 && exec ./tkcore many 2 script script'"
    stops 'a racing thread that cannot be started' 'cannot start a thread' \
        "exec setpriv --reuid 61234 --regid 61234 --clear-groups bash -c 'ulimit -u 1 && exec ./tkcore race 1 script script'"
    expect 'a trace goes on where no thread can be started' 0 '' 4194304 1700000000000000000 \
        "exec setpriv --reuid 61234 --regid 61234 --clear-groups bash -c 'ulimit -u 1 && exec ./tkcore trace realtime script most'"
fi
