# Completion of calendar-timers for bash: verbs, options with the form of their values, units and files.

@TABLE@

# Prints the folders that have the units of the system or, if $1 is `--user`, of the user.
_calendar_timers_folders() {
    local config=${XDG_CONFIG_HOME-$HOME/.config} data=${XDG_DATA_HOME-$HOME/.local/share} every
    if [ "$1" != --user ]; then
        printf '%s\n' {/etc,/run}/systemd/system{,.control,.attached} {/usr/local/lib,/lib,/usr/lib}/systemd/system \
            /run/systemd/{transient,generator{,.early,.late}}
        return
    fi
    IFS=: read -ra every <<< "${XDG_CONFIG_DIRS-/etc/xdg}:${XDG_DATA_DIRS-/usr/local/share:/usr/share}"
    printf '%s/systemd/user\n' "$config" "$data" "${every[@]}" /etc /run /usr/{local/,}{lib,share}
    printf '%s\n' "$config/systemd/user.control"
    [ -z "${XDG_RUNTIME_DIR+set}" ] ||
        printf '%s\n' "$XDG_RUNTIME_DIR"/systemd/{user{,.control},transient,generator{,.early,.late}}
}

# Prints the timers whose names begin with $2, without templates.
_calendar_timers_units() {
    local folder unit
    while read -r folder; do
        for unit in "$folder/$2"*.timer; do
            case ${unit##*/} in '*.timer' | "$2"'*.timer' | *@.timer) ;; *) printf '%s\n' "${unit##*/}" ;; esac
        done
    done < <(_calendar_timers_folders "$1") | sort -u
}

# Offers the items on standard input to complete the word $1. Each item follows $2, the start of the word. Readline
# replaces only what comes after the last `=` or `:` of the word, so everything before that is cut off. No space is
# added after `=`, `:` and `@`, because the value continues there.
_calendar_timers_offer() {
    local whole=$1 head=$2 breaks cut='' i
    mapfile -t COMPREPLY
    breaks=${COMP_WORDBREAKS//[!=:]/}
    [ -z "$breaks" ] || cut=${whole%"${whole##*["$breaks"]}"}
    for i in "${!COMPREPLY[@]}"; do
        case ${COMPREPLY[i]} in *[=:@]) compopt -o nospace 2> /dev/null ;; esac
        COMPREPLY[i]=$head${COMPREPLY[i]}
        COMPREPLY[i]=${COMPREPLY[i]#"$cut"}
    done
}

# Offers the values of an option. After `posix:` the user types a rule, so nothing is offered.
_calendar_timers_values() {
    local option=$1 value=$2 whole=$3
    local head=${whole%"$value"}
    case $(_calendar_timers_value "$option") in
    ZONE)
        [ "$value" = "${value#posix:}" ] || return
        _calendar_timers_offer "$whole" "$head" < <(compgen -W 'UTC posix:' -- "$value")
        ;;
    @N)
        [ "$value" = "${value#@}" ] || return
        _calendar_timers_offer "$whole" "$head" < <(compgen -W '@' -- "$value")
        ;;
    DIR)
        compopt -o filenames 2> /dev/null
        _calendar_timers_offer "$whole" "$head" < <(compgen -d -- "${value//\\/}")
        ;;
    esac
}

# Offers units, folders and timer files to complete the word $1, and the words $3. A name without a slash is that of a
# unit; $2 says whose. A slash follows a folder, and a backslash precedes a blank in a name.
_calendar_timers_targets() {
    local whole=$1 scope=$2 others=$3 name=${1//\\/}
    compopt -o filenames 2> /dev/null
    _calendar_timers_offer "$whole" '' < <(
        case $name in
        */*) compgen -f -X '!*.timer' -- "$name" ;;
        *) _calendar_timers_units "$scope" "$name" && compgen -W "$others" -- "$name" ;;
        esac
        compgen -d -- "$name"
    )
}

# Offers what the verb $1 takes after $4 arguments that are not options.
_calendar_timers_words() {
    local verb=$1 whole=$2 scope=$3 targets=$4
    case $verb,$targets in
    ,*) _calendar_timers_targets "$whole" "$scope" "$_calendar_timers_verbs help" ;;
    help,0) _calendar_timers_offer "$whole" '' < <(compgen -W "$_calendar_timers_verbs" -- "$whole") ;;
    help,* | same,2 | due,1) ;;
    between,0 | between,1)
        _calendar_timers_offer "$whole" '' < <(compgen -W 'now today yesterday tomorrow' -- "$whole")
        ;;
    next,*)
        _calendar_timers_offer "$whole" '' \
            < <(compgen -W 'minutely hourly daily weekly monthly quarterly semiannually yearly' -- "$whole")
        ;;
    cron,*)
        compopt -o filenames 2> /dev/null
        _calendar_timers_offer "$whole" '' < <(compgen -f -- "${whole//\\/}")
        ;;
    *) _calendar_timers_targets "$whole" "$scope" '' ;;
    esac
}

_calendar_timers() {
    # Takes the word at the cursor and the words before it from the line, because bash splits words at `=` and `:`.
    local line=${COMP_LINE:0:COMP_POINT} options=''
    local whole words word verb='' option='' ended='' scope='' targets=0
    line=${line#*"${COMP_WORDS[0]}"}
    [[ $line =~ ((\\.|[^[:space:]\\])*)$ ]] && whole=${BASH_REMATCH[1]}
    read -ra words <<< "${line%"$whole"}"
    COMPREPLY=()
    # The verb is the first word that is neither an option nor its value, or else `list`.
    for word in "${words[@]}"; do
        case $option$ended,$word in
        -*,*) option='' ;;
        ,--user) scope=--user ;;
        ,--) ended=yes verb=${verb:-list} ;;
        ,-?*) [ -z "$(_calendar_timers_value "$word")" ] || option=$word ;;
        *)
            targets=$((targets + 1))
            [ -n "$verb" ] || case " $_calendar_timers_verbs help " in *" $word "*) verb=$word targets=0 ;; esac
            verb=${verb:-list}
            ;;
        esac
    done
    options=$(_calendar_timers_options "$verb")
    case $option$ended,$whole in
    -*,*) _calendar_timers_values "$option" "$whole" "$whole" ;;
    ,--*=*) _calendar_timers_values "${whole%%=*}" "${whole#*=}" "$whole" ;;
    ,-*) _calendar_timers_offer "$whole" '' < <(compgen -W "$options" -- "$whole") ;;
    *) _calendar_timers_words "$verb" "$whole" "$scope" "$targets" ;;
    esac
}

complete -F _calendar_timers calendar-timers
