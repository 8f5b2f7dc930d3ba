# Completion of cetvm's words in bash:
#     source completions/cetvm.bash
# or copy it to a folder from which bash loads completions, such as ~/.local/share/bash-completion/completions/cetvm.

# The options of a command that may still come: each stands at most once, and `replay` takes one schedule.
_cetvm_options() {
    local command=$1 option used=" ${*:2} "
    local options=""
    case $command in
        asm) options="--runtime" ;;
        run) options="--limit --procs --trace --signals" ;;
        replay) options="--schedule --mix --limit --procs --trace --signals" ;;
        smp) options="--workers --limit --procs --trace --signals" ;;
    esac
    for option in $options; do
        case $option in
            --schedule | --mix) [[ $used == *" --schedule"[\ =]* || $used == *" --mix"[\ =]* ]] && continue ;;
        esac
        [[ $used == *" $option"[\ =]* ]] || printf '%s\n' "$option"
    done
}

# Values of an option, where there are few; examples, where there are many.
_cetvm_values() {
    case $1 in
        --limit) printf '%s\n' 1 10 100 1000 10000 100000 ;;
        --procs) printf '%s\n' 1 2 3 4 5 6 7 8 ;;
        --workers) printf '%s\n' 1 2 4 8 16 ;;
        --trace) printf '%s\n' full last ;;
        --mix) printf '%s\n' 0 1 2 3 ;;
        --schedule) printf '%s\n' '0' '0*1' '0*1,1*1' ;;
        --signals) printf '%s\n' '0:0:10' ;;
    esac
}

# Whether a word is an option of the command that has a value.
_cetvm_has_value() {
    [[ $2 != --runtime ]] && _cetvm_options "$1" | grep -q -x -e "$2"
}

# What may stand in the place of the word behind these.
_cetvm_candidates() {
    local before=${*: -1}
    if (($# == 0)); then
        printf '%s\n' asm dis check run replay bench smp
    elif [[ $1 == bench ]]; then
        (($# == 1)) && printf '%s\n' 1 10 100 1000
    elif (($# > 1)) && [[ $before == "=" ]]; then
        _cetvm_values "${*: -2:1}"
    elif (($# > 1)) && _cetvm_has_value "$1" "$before"; then
        _cetvm_values "$before"
    else
        _cetvm_options "$@"
    fi
}

_cetvm() {
    COMPREPLY=()
    local now=${COMP_WORDS[COMP_CWORD]} candidate
    local -a behind=("${COMP_WORDS[@]:1:COMP_CWORD-1}")
    # Bash takes `--trace=last` for three words, of which the second may be the one that is begun.
    if [[ $now == "=" ]]; then
        behind+=("=")
        now=""
    fi
    while IFS= read -r candidate; do
        [[ $candidate == "$now"* ]] && COMPREPLY+=("$candidate")
    done < <(_cetvm_candidates "${behind[@]}")
}

complete -F _cetvm cetvm
