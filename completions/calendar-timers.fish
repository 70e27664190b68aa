# Completion of calendar-timers for fish: verbs, options with the form of their values, units and files.

function __calendar_timers_folders
    # Prints the folders that have the units of the system or, after --user, of the user.
    if not contains -- --user (commandline -opc)
        string join \n {/etc,/run}/systemd/system{,.control,.attached} {/usr/local/lib,/lib,/usr/lib}/systemd/system \
            /run/systemd/{transient,generator{,.early,.late}}
        return
    end
    set -l config ~/.config
    set -l data ~/.local/share
    set -l every /etc/xdg
    set -l theirs /usr/local/share /usr/share
    set -q XDG_CONFIG_HOME; and set config "$XDG_CONFIG_HOME"
    set -q XDG_DATA_HOME; and set data "$XDG_DATA_HOME"
    set -q XDG_CONFIG_DIRS; and set every (string split : -- "$XDG_CONFIG_DIRS")
    set -q XDG_DATA_DIRS; and set theirs (string split : -- "$XDG_DATA_DIRS")
    set -a every $theirs $config $data /etc /run /usr/{local/,}{lib,share}
    string join \n $every/systemd/user $config/systemd/user.control
    set -q XDG_RUNTIME_DIR
    and string join \n "$XDG_RUNTIME_DIR"/systemd/{user{,.control},transient,generator{,.early,.late}}
end

function __calendar_timers_targets
    # Prints units and folders, or timer files and folders if the word has a slash, since it is a path then.
    if string match -q -- '*/*' (commandline -ct)
        __fish_complete_suffix .timer
        return
    end
    for folder in (__calendar_timers_folders)
        set -l units $folder/*.timer
        string replace -r -- '.*/' '' $units | string match -v -- '*@.timer'
    end
    __fish_complete_directories (commandline -ct) folder
end

function __calendar_timers_zones
    # Prints values of --zone and --in. Prints nothing after `posix:`, because the user types a rule there.
    string match -q -- '*posix:*' (commandline -ct); and return
    string join \n UTC posix:
end

function __calendar_timers_words
    # Prints the words that are neither options nor values of options, without the name of the program.
    set -l words (commandline -opc)
    set -l option
    for word in $words[2..-1]
        if test -n "$option"
            set option
        else if contains -- $word $__calendar_timers_valued
            set option $word
        else if not string match -q -- '-*' $word
            echo $word
        end
    end
end

function __calendar_timers_verb_is
    # Returns whether the verb is one of these. It is `none` before the first word that is not an option. If that word
    # is not the name of a verb, the verb is `list`.
    set -l words (__calendar_timers_words)
    set -l verb none
    if set -q words[1]
        set verb list
        contains -- $words[1] $__calendar_timers_verbs help; and set verb $words[1]
    end
    contains -- $verb $argv
end

function __calendar_timers_has
    # Returns whether there are this many words that are not options, the verb among them.
    test (count (__calendar_timers_words)) $argv
end

set -l times 'now today yesterday tomorrow'
set -l expressions 'minutely hourly daily weekly monthly quarterly semiannually yearly'

complete -c calendar-timers -f
@TABLE@
complete -c calendar-timers -n '__calendar_timers_verb_is cron' -F
complete -c calendar-timers -n '__calendar_timers_verb_is none list show lint' -a '(__calendar_timers_targets)'
complete -c calendar-timers -n '__calendar_timers_verb_is between; and __calendar_timers_has -lt 3' -a $times
complete -c calendar-timers -n '__calendar_timers_verb_is between; and __calendar_timers_has -ge 3' \
    -a '(__calendar_timers_targets)'
complete -c calendar-timers -n '__calendar_timers_verb_is same; and __calendar_timers_has -lt 3' \
    -a '(__calendar_timers_targets)'
complete -c calendar-timers -n '__calendar_timers_verb_is next' -a $expressions
complete -c calendar-timers -n '__calendar_timers_verb_is due; and __calendar_timers_has -eq 1' \
    -a '(__calendar_timers_targets)'
complete -c calendar-timers -n '__calendar_timers_verb_is help; and __calendar_timers_has -eq 1' \
    -a "$__calendar_timers_verbs"
