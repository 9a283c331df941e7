# SPDX-License-Identifier: MIT OR Apache-2.0
# Completes the arguments of tkcore in bash.
_tkcore()
{
    local word=${COMP_WORDS[COMP_CWORD]} found=''
    local clocks='realtime monotonic boottime tai realtime_coarse monotonic_coarse monotonic_raw'
    case $COMP_CWORD:${COMP_WORDS[1]} in
    1:*) found='replay trace many race' ;;
    2:replay) found='--keep' ;;
    2:trace) found=$clocks ;;
    [34]:trace | [3-9]:many | [1-9][0-9]:many | [3-9]:race | [1-9][0-9]:race)
        mapfile -t COMPREPLY < <(compgen -f -- "$word")
        return
        ;;
    esac
    mapfile -t COMPREPLY < <(compgen -W "$found" -- "$word")
}
complete -o filenames -F _tkcore tkcore
