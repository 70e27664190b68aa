# Completion of calendar-analyze for fish: verbs, options with the form of their values, and the files that they take.

function __calendar_analyze_zones
    # Prints the values of --local: UTC, `posix:`, and the names that an earlier --zones gives to its files. Prints
    # nothing after `posix:`, because the user types a rule there.
    string match -q -- '*posix:*' (commandline -ct); and return
    string split ' ' 'UTC posix:'
    set -l before
    for word in (commandline -opc)
        if string match -q -- '--zones=*' $word; or test "$before" = --zones
            for item in (string split , (string replace -- --zones= '' $word))
                string split -f 1 = $item
            end
        end
        set before $word
    end
end

function __calendar_analyze_verb_is
    # Returns whether the first argument is one of these verbs. Before that argument, the verb is `none`.
    set -l words (commandline -opc) none
    contains -- $words[2] $argv
end

complete -c calendar-analyze -f
@TABLE@
complete -c calendar-analyze -n '__calendar_analyze_verb_is timer' -k -a '(__fish_complete_suffix .timer)'
complete -c calendar-analyze -n '__calendar_analyze_verb_is calendar' -a 'minutely hourly daily weekly monthly quarterly semiannually yearly'
complete -c calendar-analyze -n '__calendar_analyze_verb_is timestamp' -a 'now today yesterday tomorrow'
complete -c calendar-analyze -n '__calendar_analyze_verb_is help; and test (count (commandline -opc)) -eq 2' \
    -a "$__calendar_analyze_verbs"
