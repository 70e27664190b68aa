# Completion of calendar-analyze for bash: verbs, options with the form of their values, and the files that they take.

@TABLE@

_calendar_analyze_zones() {
    # Prints the names that an earlier --zones gives to its files.
    local words before='' word items item
    read -ra words <<< "$COMP_LINE"
    for word in "${words[@]}"; do
        case $before,$word in
        *,--zones=* | --zones,*)
            IFS=, read -ra items <<< "${word#--zones=}"
            for item in "${items[@]}"; do
                printf '%s\n' "${item%%=*}"
            done
            ;;
        esac
        before=$word
    done
}

# Offers the items on standard input to complete the word $1. Each item follows $2, the start of the word. Readline
# replaces only what comes after the last `=` or `:` of the word, so everything before that is cut off. No space is
# added after `=`, `:` and `@`, because the value continues there.
_calendar_analyze_offer() {
    local whole=$1 head=$2 breaks cut='' i
    mapfile -t COMPREPLY
    breaks=${COMP_WORDBREAKS//[!=:]/}
    [ -z "$breaks" ] || cut=${whole%"${whole##*["$breaks"]}"}
    for i in "${!COMPREPLY[@]}"; do
        case ${COMPREPLY[i]} in *[=:@]) compopt -o nospace 2> /dev/null ;; esac
        COMPREPLY[i]=$head${COMPREPLY[i]}
        COMPREPLY[i]=${COMPREPLY[i]#"$cut"}
    done
}

# Offers the files whose names begin with $2 to complete the word $1. With a pattern $3, offers only folders and the
# files that match it. A slash follows a folder, and a backslash precedes a blank in a name.
_calendar_analyze_files() {
    local whole=$1 value=$2 pattern=$3 name=${2//\\/}
    compopt -o filenames 2> /dev/null
    _calendar_analyze_offer "$whole" "${whole%"$value"}" \
        < <(if [ -z "$pattern" ]; then compgen -f -- "$name"; else compgen -f -X "!$pattern" -- "$name"; compgen -d -- "$name"; fi)
}

# Offers the values of an option. After `posix:` the user types a rule, so nothing is offered.
_calendar_analyze_values() {
    local option=$1 value=$2 whole=$3 item=${2##*,}
    local head=${whole%"$value"}
    case $(_calendar_analyze_value "$option") in
    NAME=FILE,..) [ "$item" = "${item#*=}" ] || _calendar_analyze_files "$whole" "${item#*=}" '' ;;
    ZONE)
        [ "$value" = "${value#posix:}" ] || return
        _calendar_analyze_offer "$whole" "$head" < <(compgen -W "UTC posix: $(_calendar_analyze_zones)" -- "$value")
        ;;
    @N | STAMP)
        [ "$value" = "${value#@}" ] || return
        _calendar_analyze_offer "$whole" "$head" < <(compgen -W '@' -- "$value")
        ;;
    esac
}

# Offers the texts of a verb, or timer files.
_calendar_analyze_texts() {
    local verb=$1 whole=$2 texts
    case $verb in
    timer) _calendar_analyze_files "$whole" "$whole" '*.timer' && return ;;
    calendar) texts='minutely hourly daily weekly monthly quarterly semiannually yearly' ;;
    timestamp) texts='now today yesterday tomorrow' ;;
    *) return ;;
    esac
    _calendar_analyze_offer "$whole" '' < <(compgen -W "$texts" -- "$whole")
}

_calendar_analyze() {
    # Takes the word at the cursor and the words before it from the line, because bash splits words at `=` and `:`.
    local line=${COMP_LINE:0:COMP_POINT} verb=${COMP_WORDS[1]} options whole words last
    line=${line#*"${COMP_WORDS[0]}"}
    [[ $line =~ ((\\.|[^[:space:]\\])*)$ ]] && whole=${BASH_REMATCH[1]}
    read -ra words <<< "${line%"$whole"}"
    COMPREPLY=()
    if [ "${#words[@]}" -eq 0 ]; then
        options="$_calendar_analyze_verbs help $(_calendar_analyze_options '')"
        _calendar_analyze_offer "$whole" '' < <(compgen -W "$options" -- "$whole")
        return
    fi
    case $verb in
    help)
        [ "${#words[@]}" -gt 1 ] ||
            _calendar_analyze_offer "$whole" '' < <(compgen -W "$_calendar_analyze_verbs" -- "$whole")
        return
        ;;
    esac
    last=${words[${#words[@]} - 1]}
    options=$(_calendar_analyze_options "$verb")
    if [[ " ${words[*]} " == *' -- '* ]]; then
        # After `--` all words are texts.
        _calendar_analyze_texts "$verb" "$whole"
    elif [ -n "$(_calendar_analyze_value "$last")" ]; then
        _calendar_analyze_values "$last" "$whole" "$whole"
    else
        case $whole in
        --*=*) _calendar_analyze_values "${whole%%=*}" "${whole#*=}" "$whole" ;;
        -*) _calendar_analyze_offer "$whole" '' < <(compgen -W "$options" -- "$whole") ;;
        *) _calendar_analyze_texts "$verb" "$whole" ;;
        esac
    fi
}

complete -F _calendar_analyze calendar-analyze
