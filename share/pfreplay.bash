# Completion of pfreplay for bash. Source this file, or put it as `pfreplay` where bash-completion looks for it.

# The flags of a command, or those that stand without one.
_pfreplay_flags() {
    local ruleset='--interface --address --also'
    local ways='--inside --mac --tap'
    local surroundings='--interface-address --group --hosts --services --table --include'
    local outputs='--verdicts --packets --counters --states --messages --peer'
    local choices='--only --rule --line --host --port --proto --logged'
    case $1 in
        run) echo "--help $ruleset --adapt $surroundings $ways $outputs --seed --batch --workers --warn --progress" ;;
        check) echo "--help $ruleset --adapt $surroundings" ;;
        adapt) echo "--help $ruleset $surroundings" ;;
        standby) echo '--help --messages --listen' ;;
        states) echo '--help --json' ;;
        rules) echo "--help $ruleset --adapt $surroundings --counters --format" ;;
        diff) echo "--help $ruleset --adapt $surroundings $ways --seed --verdicts --format --quiet --progress" ;;
        show) echo "--help $ruleset --adapt $surroundings $choices --count --format" ;;
        report) echo "--help $ruleset --adapt $surroundings --states --quiet --progress" ;;
        '') echo '--help --version' ;;
    esac
}

# Answers those of some words that begin with what stands at the cursor.
_pfreplay_words() {
    mapfile -t COMPREPLY < <(compgen -W "$1" -- "$2")
}

# Answers those of some words that begin with what stands behind the last comma, each behind what stands before it.
_pfreplay_listed() {
    local before=
    [[ $2 != *,* ]] || before=${2%,*},
    mapfile -t COMPREPLY < <(compgen -P "$before" -W "$1" -- "${2##*,}")
}

# Answers files whose names begin with a text, each behind what stands before it in the same word.
_pfreplay_files() {
    local place
    compopt -o filenames 2>/dev/null
    mapfile -t COMPREPLY < <(compgen -f -- "$1")
    for place in "${!COMPREPLY[@]}"; do
        COMPREPLY[place]=$2${COMPREPLY[place]}
    done
}

# Answers the files that stand behind the name and the address of an interface, two for `run`, and one for `diff`,
# `show` and `report`: the command, the value so far, and the part of it that bash takes for a word.
_pfreplay_also() {
    case $1:${2//[^,]/} in
        run:,, | run:,,, | diff:,, | show:,, | report:,,) _pfreplay_files "${3##*,}" "${3%,*}," ;;
    esac
}

# Answers what may stand behind a flag: the command, the flag, the value so far, and the part of it that bash takes for
# a word.
_pfreplay_value() {
    case $2 in
        # `diff` has this flag without a value
        --verdicts) [[ $1 != diff ]] && _pfreplay_files "$4" ;;
        --packets | --counters | --states | --messages | --hosts | --services) _pfreplay_files "$4" ;;
        --table | --include) [[ $3 != *=* ]] || _pfreplay_files "$4" ;;
        --also) _pfreplay_also "$1" "$3" "$4" ;;
        --tap) _pfreplay_words 'stack wire' "$4" ;;
        --format)
            case $1 in
                rules | diff) _pfreplay_words 'text json' "$4" ;;
                *) _pfreplay_words 'text json pflog' "$4" ;;
            esac
            ;;
        --only) _pfreplay_listed 'pass block return skip' "$4" ;;
        --interface | --address | --inside | --mac | --seed | --batch | --workers | --peer | --listen) ;;
        --interface-address | --group | --rule | --line | --host | --port) ;;
        --proto) _pfreplay_words 'icmp igmp tcp udp gre esp ah' "$4" ;;
        *) return 1 ;;
    esac
}

_pfreplay() {
    local commands='run check adapt standby states rules diff show report help'
    local word=${COMP_WORDS[COMP_CWORD]} command=${COMP_WORDS[1]} place=$((COMP_CWORD - 1))
    local value=$word
    COMPREPLY=()
    if ((COMP_CWORD == 1)); then
        _pfreplay_words "$commands $(_pfreplay_flags '')" "$word"
        return
    fi
    # bash cuts words at `=` and `:`, so what stands behind a flag may be several of them
    [[ $word != [=:] ]] || word=
    while ((place > 1)) && [[ ${COMP_WORDS[place]} != -?* ]] &&
        [[ ${COMP_WORDS[place]}${COMP_WORDS[place + 1]} == *[=:]* ]]; do
        value=${COMP_WORDS[place]}$value
        ((place -= 1))
    done
    _pfreplay_value "$command" "${COMP_WORDS[place]}" "${value#=}" "$word" && return
    case $command in
        help) ((COMP_CWORD > 2)) || _pfreplay_words "${commands% help}" "$word" ;;
        run | check | adapt | standby | states | rules | diff | show | report)
            if [[ $word == -* ]]; then
                _pfreplay_words "$(_pfreplay_flags "$command")" "$word"
            elif [[ $command != standby ]]; then
                _pfreplay_files "$word"
            fi ;;
    esac
}

complete -F _pfreplay pfreplay
