#!/usr/bin/env bash
# Refuses each request for memory of the program in turn, and then each of its threads.
#
#     tests/harness/refuse_each.sh PROGRAM
#
# The runs are reports of four scripts with and without `--keep 1`, reports of steered clocks that a
# script opens and continues, a trace of steered clocks, short traces and one that several threads
# convert, races of one, two and three actors, and the reports of two scripts by `many`. With one
# request refused, the program must end with `out of memory` and nothing written, or write the whole
# output. A report by `many` may also be the line `fault,out of memory`. If its threads are refused
# from the Nth on, a race or `many` must end with status 1 and one line, or write the whole output,
# and a trace must write the whole output. N counts up from 1 until a run meets no refusal.
#
# Requests are numbered apart: those of the first thread, those inside pthread_create, and those of
# the other threads. So the Nth request of the first thread is the same one in every run, whatever
# the schedule. A refused one is reported as a thread that can't be started at most once for each
# thread that the program starts: the request for the thread's own value. A refused request of
# another thread is never reported so.
#
# It ends with status 1 at the first run that does anything else. It needs gcc and glibc.
set -u
program=$(realpath "$1")
cd "$(dirname "$0")" || exit 1
work=$(mktemp -d)
trap 'rm -rf "$work"' EXIT
gcc -shared -fPIC -O1 -o "$work/refuse.so" refuse_malloc.c || exit 1
cp ../../crates/tk_examples/data/01-updates.csv "$work/1.csv"
cp ../../crates/tk_examples/data/12-leap-days.csv "$work/2.csv"
cp ../../crates/tk_examples/data/29-adjtime.csv "$work/steered.csv"
cp ../../crates/tk_examples/data/30-a-discipline-continued.csv "$work/continued.csv"
cd "$work" || exit 1

# more requests than any run makes: a loop that gets there has gone wrong
readonly most=100000
refused=0 in_place=0 threads=0
# of one case: how many threads it starts, and how many requests of the first thread that were not
# made inside pthread_create were reported as a thread that can't be started
starts=0 lost_threads=0

# KIND NUMBER INPUT WORDS..: runs the program on these words with this request refused. What it wrote
# is in `out`, and `ended` has its status and its fault.
run() {
    local kind=$1 number=$2 input=$3
    shift 3
    rm -f mark
    env "$kind=$number" REFUSE_MARK=mark LD_PRELOAD=./refuse.so "$program" "$@" <"$input" >out 2>err
    ended="$? $(cat err)"
}

# KIND: the first thread's request for a thread's own value may be reported so, once for each thread,
# and a request inside pthread_create may. No other may.
count_lost_thread() {
    [[ $ended = "1 tkcore: $thread" ]] || return 0
    case $1 in
    REFUSE_FIRST) [ $((++lost_threads)) -le "$starts" ] ;;
    REFUSE_STARTING) [ "$starts" -gt 0 ] ;;
    *) false ;;
    esac
}

is_whole() {
    [ "$ended" = '0 ' ] && cmp -s out whole
}

# KIND NUMBER WORDS..: that run ended otherwise
differs() {
    echo "words '${*:3}', $1 $2: status $ended, $(wc -c <out) bytes of output"
    exit 1
}

# KIND FAULTS INPUT WORDS..: counts up: the whole output, or one of these faults with nothing written
each() {
    local kind=$1 faults=$2 input=$3 number
    shift 3
    lost_threads=0
    "$program" "$@" <"$input" >whole || differs none 0 "$@"
    for number in $(seq 1 $most); do
        run "$kind" "$number" "$input" "$@"
        [ -e mark ] || break
        if ! is_whole && { [ -s out ] || [[ ! $ended =~ ^1\ tkcore:\ ($faults)$ ]]; }; then
            differs "$kind" "$number" "$@"
        fi
        if [ "$kind" = REFUSE_THREADS ]; then
            threads=$((threads + 1)) starts=$number
        else
            refused=$((refused + 1))
            count_lost_thread "$kind" || differs "$kind" "$number" "$@"
        fi
    done
    # without a refusal the output is whole
    is_whole || differs "$kind" "$number" "$@"
    echo "words '$*': $((number - 1)) refusals by $kind"
}

# FAULTS INPUT WORDS..: refuses the requests for memory of each kind in turn
each_request() {
    local kind
    for kind in REFUSE_{FIRST,STARTING,OTHERS}; do
        each "$kind" "$@"
    done
}

memory='out of memory' thread='cannot start a thread'

{ echo open,32,16777216,24,0,1700000000,0 && yes update,0 | head -n 600; } >3.csv
printf '%s\n' open,32,16777216,24,0,1700000000,0 '"update",5' get,5,realtime '"tai",9,"37"' >quoted.csv
for script in 1 2 3 quoted; do
    each_request "$memory" $script.csv
    each_request "$memory" $script.csv replay --keep 1
done

printf '%s\n' open,32,16777216,24,0,1700000000,0 tai,0,37 freq,0,65536000 get,9,tai update,9 >4.csv
seq 0 99 | sed 's/.*/1,&\n3,&/' >short
# enough stamps for several threads
seq 0 999999 | sed 's/.*/2,&/' >long
each_request "$memory" /dev/null trace tai 4.csv short
each_request "$memory" /dev/null trace realtime 3.csv short
each_request "$memory" steered.csv replay
each_request "$memory" continued.csv replay
each_request "$memory" /dev/null trace realtime steered.csv short
seq 0 99 | sed 's/.*/"2",&/' >quoted
each_request "$memory" /dev/null trace tai quoted.csv quoted
each_request "$memory" /dev/null trace tai 4.csv long
# no fault is allowed: where no thread starts, one thread converts it all
each REFUSE_THREADS 'no such fault' /dev/null trace tai 4.csv long
if [ $threads = 0 ] && [ "$(nproc)" -gt 1 ]; then
    echo "the trace of $(wc -l <long) stamps started no thread"
    exit 1
fi

# each order is accepted or refused whatever the actors' order is
printf '%s\n' open,32,16777216,24,0,1700000000,0 update,0 get,0,tai tai,0,100001 resume,0,0,0 freq,0,5 >5.csv
cp 5.csv 6.csv
for scripts in 3.csv 5.csv '3.csv 5.csv' '5.csv 6.csv 5.csv'; do
    # shellcheck disable=SC2086
    each REFUSE_THREADS "$thread" /dev/null race 1000 $scripts
    # shellcheck disable=SC2086
    each_request "$memory|$thread" /dev/null race 1000 $scripts
done
each REFUSE_THREADS "$thread" /dev/null many 2 1.csv 2.csv
each REFUSE_THREADS "$thread" /dev/null many 3 1.csv 2.csv 3.csv

# many: a report may be replaced by the line of its fault
lost='fault,out of memory'
first=$("$program" <1.csv) second=$("$program" <2.csv)
printf 'file,0\n%s\nfile,1\n%s\n' "$first" "$second" >whole
printf 'file,0\n%s\nfile,1\n%s\n' "$lost" "$second" >faulty1
printf 'file,0\n%s\nfile,1\n%s\n' "$first" "$lost" >faulty2
printf 'file,0\n%s\nfile,1\n%s\n' "$lost" "$lost" >faulty3

# KIND: whether a run of `many` ended as it may
is_report() {
    case $ended in
    '0 ') cmp -s out whole ;;
    '1 ') { cmp -s out faulty1 || cmp -s out faulty2 || cmp -s out faulty3; } && ((++in_place)) ;;
    "1 tkcore: $memory" | "1 tkcore: $thread")
        [ ! -s out ] && ((++refused)) && count_lost_thread "$1"
        ;;
    *) false ;;
    esac
}

for workers in 1 2; do
    starts=$workers lost_threads=0
    for kind in REFUSE_{FIRST,STARTING,OTHERS}; do
        for number in $(seq 1 $most); do
            run "$kind" "$number" /dev/null many $workers 1.csv 2.csv
            [ -e mark ] || break
            is_report "$kind" || differs "$kind" "$number" many $workers 1.csv 2.csv
        done
        echo "words 'many $workers 1.csv 2.csv': $((number - 1)) refusals by $kind"
    done
done
if [ $refused = 0 ] || [ $in_place = 0 ] || [ $threads = 0 ]; then
    echo "nothing was refused: is tests/harness/refuse_malloc.c loaded?"
    exit 1
fi
echo "refuse_each: $refused requests for memory and $threads for threads refused with nothing written," \
    "$in_place in a report's place"
