#!/usr/bin/env bash
# Runs the built program on bad words and bytes, on input and output that fail, and on the largest
# scripts, each within 20 seconds and 800 MB of address space. It prints a line for each case, and
# exits with status 1 at the first that differs. The program is the one that TKCORE names, or that
# tools/build_program built.
set -u
# shellcheck source=expect.sh
. "$(dirname "$0")/expect.sh"

for given in '--keep 1' 'replay --keep' 'replay --keep 0' 'replay --keep 524289' 'replay --keep +1' 'replay --help' \
    '--help' 'help' '--version' 'many' "replay --keep \$'\\377'" "\$'\\377'"; do
    expect "the words $given" 2 "$words" "$usage_lines" "$usage_end" \
        "\$program $given <\$row"
done
for given in '' 'replay' 'replay --keep 007' 'replay --keep=524288'; do
    expect "the words '$given'" 0 '' 5 'no,behind' "\$program $given <\$row"
done

stops 'a folder as input' 'cannot read' '$program </'
stops 'no input' 'cannot read' '$program <&-'
stops 'a full disk as output' 'cannot write' '$program <$row >/dev/full'
stops 'no output' 'cannot write' '$program <$row >&-'
stops 'a pipe that nobody reads' 'cannot write' "$unread \$program <\$row >&4"
expect 'a fault that nobody hears' 1 '' 0 '' '$program </ 2>/dev/full'
expect 'refused words on a full disk' 2 "$words" 0 '' '$program --help >/dev/full'
expect 'refused words without output' 2 "$words" 0 '' '$program --help >&-'
expect 'a usage after a line that nobody hears' 2 '' "$usage_lines" "$usage_end" '$program help 2>/dev/full'

opening_fault='script: record 1: not a valid opening'
large='script: larger than 16777216 bytes'
stops 'nothing' 'script: no record' '$program </dev/null'
stops 'a byte that is no text' "$opening_fault" "printf '\\377' | \$program"
stops 'a word that is no text' 'script: record 2: unknown word' "printf '%s\\n\\377\\376,0\\n' \$opening | \$program"
stops 'a zero byte in a number' 'script: record 2: not a number in range' \
    "printf '%s\\nupdate,\\0\\n' \$opening | \$program"
stops 'an input without end' "$large" "yes '' | \$program"

bytes '\n' 16777217 >"$work/large"
stops 'one byte too many' "$large" '$program <$work/large'
bytes '\n' 16777216 >"$work/empty"
stops 'empty lines' 'script: no record' '$program <$work/empty'
bytes '\0' 16777216 >"$work/zeros"
stops 'zero bytes' "$opening_fault" '$program <$work/zeros'
{ printf '"' && bytes a 16777215; } >"$work/quote"
stops 'a quote that is never closed' "$opening_fault" '$program <$work/quote'
{ printf '%s\n"' "$opening" && bytes a 16777180; } >"$work/later_quote"
stops 'one in a later record' 'script: record 2: unknown word' '$program <$work/later_quote'
{ printf '"' && bytes a 16777216; } >"$work/large_quote"
stops 'one in a large script' "$large" '$program <$work/large_quote'
bytes ',' 16777216 >"$work/fields"
stops 'many fields' "$opening_fault" '$program <$work/fields'
yes a | head -c 16777216 >"$work/records"
stops 'many records of a byte' "$opening_fault" '$program <$work/records'
{ echo "$opening" && yes a | head -c 16777180; } >"$work/later_records"
stops 'many behind an opening' 'script: record 2: unknown word' '$program <$work/later_records'

{ echo "$opening" && yes update,0 | head -n 1864131; } >"$work/updates"
expect 'a full journal' 0 '' 1864132 'no,full' '$program <$work/updates'
expect 'a journal that is folded to one entry' 0 '' 1864132 'ok,1864131,0.000000000' \
    '$program replay --keep 1 <$work/updates'
expect 'a journal that is folded to half' 0 '' 1864132 'ok,1864131,0.000000000' \
    '$program replay --keep 524288 <$work/updates'
{ cat "$work/updates" && printf 'x'; } >"$work/last_fault"
stops 'a fault in the last record' 'script: record 1864133: unknown word' '$program <$work/last_fault'
stops 'too little memory' 'out of memory' 'ulimit -v 60000 && $program <$work/updates'
