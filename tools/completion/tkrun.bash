# SPDX-License-Identifier: MIT OR Apache-2.0
# Completes the arguments of tkrun in bash: its options, and after -- a program and its arguments.
_tkrun()
{
    local word=${COMP_WORDS[COMP_CWORD]} before=${COMP_WORDS[COMP_CWORD - 1]} at
    local options='--counter --hz --bits --maxsec --error-ppm --speed --read-cost --start --ahead
        --uptime --step-after-reads --script --record --every --reads --readers --check --deny-set
        --stamps --file-times --log --node --link --seed --plan --lax --static --quiet --help
        --version --'
    for ((at = 1; at < COMP_CWORD; at++)); do
        if [ "${COMP_WORDS[at]}" = -- ]; then
            if ((at + 1 < COMP_CWORD)); then
                mapfile -t COMPREPLY < <(compgen -f -- "$word")
            else
                mapfile -t COMPREPLY < <(compgen -c -- "$word")
            fi
            return
        fi
    done
    case $before in
    --counter) mapfile -t COMPREPLY < <(compgen -W 'raw tsc sleeps' -- "$word") ;;
    --script | --record | --log | --plan) mapfile -t COMPREPLY < <(compgen -f -- "$word") ;;
    --hz | --bits | --maxsec | --error-ppm | --speed | --read-cost | --start | --ahead | \
        --uptime | --step-after-reads | --every | --reads | --node | --link | --seed)
        COMPREPLY=()
        ;;
    *) mapfile -t COMPREPLY < <(compgen -W "$options" -- "$word") ;;
    esac
}
complete -o filenames -F _tkrun tkrun
