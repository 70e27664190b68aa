#!/usr/bin/env bash
# Tests the completions of bash, fish and zsh: what each shell offers at the end of a line.
#
#     tests/completions.sh PROGRAM TIMERS
#
# PROGRAM is calendar-analyze, and TIMERS is calendar-timers; completions/generate.py makes their completions. A row has
# a line as far as it was typed, with `_` for a blank, then an arrow, and exactly the words to offer. In these,
# `(VERB)` stands for the options that `--help` of the verb lists, and `()` for those without a verb. For bash, options
# with a value end in `=`.
#
# The shells run in a folder with a timer file, a text file, a zone file, and a folder with one more timer file. The
# units of the system are those of a folder next to it. The rows of a shell that isn't installed are skipped. The last
# line is 'N passed, M failed', with ', K skipped' if some were, and the status is 1 if a row failed.
set -u

if [ $# -ne 2 ] || [ ! -x "$1" ] || [ ! -x "$2" ]; then
    echo 'usage: tests/completions.sh PROGRAM TIMERS' >&2
    exit 2
fi
program=$(realpath -- "$1") timers=$(realpath -- "$2")
here=$(CDPATH='' cd -- "$(dirname -- "${BASH_SOURCE[0]}")/.." && pwd) || exit 2
scratch=$(mktemp -d) || exit 2
trap 'rm -rf "$scratch"' EXIT
made=$scratch/made
mkdir "$made" || exit 2
for file in "$program" "$timers"; do
    "$here/completions/generate.py" "$file" "$made" > /dev/null || exit 2
done
# shellcheck source=completions/calendar-analyze.bash
. "$made/calendar-analyze.bash" || exit 2
# shellcheck source=completions/calendar-timers.bash
. "$made/calendar-timers.bash" || exit 2
# The shells keep the files of a user there.
export HOME="$scratch/home" XDG_CONFIG_HOME="$scratch/home" XDG_DATA_HOME="$scratch/home" XDG_CACHE_HOME="$scratch/home"
mkdir -p "$scratch/home" "$scratch/system" "$scratch/work/units" && cd "$scratch/work" || exit 2
touch backup.timer notes.txt berlin.tz units/clean.timer || exit 2
(cd ../system && touch logrotate.timer list.timer a@.timer a@1.timer a.service) || exit 2

_calendar_timers_folders() {
    [ -n "$1" ] || echo ../system
}

# Calls the completion function for bash as readline does: the line is split at blanks, at `=` and at `:`.
by_bash() {
    local parts=${1//=/ = }
    COMP_LINE=$1 COMP_POINT=${#1}
    read -ra COMP_WORDS <<< "${parts//:/ : }"
    case $1 in *' ' | *=) COMP_WORDS+=('') ;; esac
    COMP_CWORD=$((${#COMP_WORDS[@]} - 1))
    case $1 in calendar-timers*) _calendar_timers ;; *) _calendar_analyze ;; esac
    printf '%s\n' "${COMPREPLY[@]}"
}

# fish offers the value with the option before it.
by_fish() {
    fish --no-config -c "source '$made/calendar-analyze.fish'
        source '$made/calendar-timers.fish'
        function __calendar_timers_folders; echo ../system; end
        complete -C '$1'" | cut -f 1 | sed -E 's/^--(local|zone)=//'
}

by_zsh() {
    zsh -f "$here/tests/lib/completions.zsh" "$made" "$1"
}

# Prints all words in one line, in the order of their bytes.
sorted() {
    tr ' ' '\n' | grep . | LC_ALL=C sort | paste -s -d ' '
}

# Prints the options that `--help` of a verb lists. $2 is what follows an option with a value.
options() {
    local asked=$timers
    case " calendar timer timestamp timespan " in *" $1 "*) asked=$program ;; esac
    "$asked" ${1:+"$1"} --help | sed -nE "s/^ +(-[a-zA-Z], )?(--[a-z-]+) <.*/\2$2/p; s/^ +(-[a-zA-Z], )?(--[a-z-]+)( .*|$)/\2/p"
}

# Prints the words that a row wants the shell $1 to offer, with the options in place of `(VERB)`.
wanted() {
    local words=$2 verb mark=
    [ "$1" != bash ] || mark==
    case $words in
    *'()'*) words="${words%%'()'*} $(options list "$mark") --version" ;;
    *'('*)
        verb=${words#*'('}
        words="${words%%'('*} $(options "${verb%')'}" "$mark")"
        ;;
    esac
    # shellcheck disable=SC2086 # several words
    echo $words
}

passed=0 failed=0 skipped=0

# Compares what a shell offers with each row of standard input.
try() {
    local row line wanted found
    if ! command -v "$1" > /dev/null; then
        echo "tests/completions.sh: skipped: $1 is missing"
        skipped=$((skipped + $(wc -l)))
        return
    fi
    while IFS= read -r row; do
        line=${row%% -> *}
        line=${line//_/ }
        found=$("by_$1" "$line" | sorted) wanted=$(wanted "$1" "${row#* -> }" | sorted)
        if [ "$found" = "$wanted" ]; then
            passed=$((passed + 1))
        else
            failed=$((failed + 1))
            echo "tests/completions.sh: $1: '$line' offers '$found' instead of '$wanted'"
        fi
    done
}

try bash << 'END'
calendar-analyze_ -> calendar timestamp timespan timer help --help --version
calendar-analyze_ti -> timestamp timespan timer
calendar-analyze_help_ -> calendar timestamp timespan timer
calendar-analyze_help_calendar_ -> 
calendar-analyze_timer_ -> backup.timer units
calendar-analyze_timer_n -> 
calendar-analyze_timer_u -> units
calendar-analyze_timer_units/ -> units/clean.timer
calendar-analyze_timer_-- -> (timer)
calendar-analyze_calendar_--i -> --iterations=
calendar-analyze_timestamp_-- -> (timestamp)
calendar-analyze_timespan_-- -> (timespan)
calendar-analyze_calendar_--zones=Here=b -> backup.timer berlin.tz
calendar-analyze_calendar_--zones=A=x,Here=ber -> berlin.tz
calendar-analyze_calendar_--local= -> UTC posix:
calendar-analyze_calendar_--zones=A=x,Here=berlin.tz_--local= -> UTC posix: A Here
calendar-analyze_calendar_--zones=Here=berlin.tz_--local=H -> Here
calendar-analyze_calendar_--local=posix: -> 
calendar-analyze_calendar_--local=po -> posix:
calendar-analyze_calendar_--local_po -> posix:
calendar-analyze_calendar_--zones_Here=ber -> berlin.tz
calendar-analyze_calendar_--zones_A=x,Here=berlin.tz_--local_ -> UTC posix: A Here
calendar-analyze_calendar_--now= -> @
calendar-analyze_calendar_--now=@ -> 
calendar-analyze_timestamp_--_-to -> 
calendar-analyze_timestamp_--_to -> today tomorrow
calendar-analyze_calendar_d -> daily
calendar-analyze_timestamp_to -> today tomorrow
calendar-timers_ -> a@1.timer list.timer logrotate.timer units list show lint between same next due cron help
calendar-timers_l -> list lint list.timer logrotate.timer
calendar-timers_help_ -> list show lint between same next due cron
calendar-timers_help_show_ -> 
calendar-timers_show_ -> a@1.timer list.timer logrotate.timer units
calendar-timers_show_./ -> ./backup.timer ./units
calendar-timers_lint_units/ -> units/clean.timer
calendar-timers_logrotate_li -> list.timer
calendar-timers_-- -> ()
calendar-timers_list_-- -> (list)
calendar-timers_lint_-- -> (lint)
calendar-timers_-n_3_show_-- -> (show)
calendar-timers_next_-- -> (next)
calendar-timers_next_d -> daily
calendar-timers_--zone_show_--user_show_ -> units
calendar-timers_between_to -> today tomorrow
calendar-timers_between_now_to -> today tomorrow
calendar-timers_between_now_tomorrow_l -> list.timer logrotate.timer
calendar-timers_same_a_lo -> logrotate.timer
calendar-timers_same_a_b_ -> 
calendar-timers_due_lo -> logrotate.timer
calendar-timers_due_a_ -> 
calendar-timers_due_-- -> (due)
calendar-timers_cron_ba -> backup.timer
calendar-timers_cron_-- -> (cron)
calendar-timers_--zone= -> UTC posix:
calendar-timers_--zone=po -> posix:
calendar-timers_--zone_po -> posix:
calendar-timers_--zone=posix: -> 
calendar-timers_--now= -> @
calendar-timers_--root=u -> units
calendar-timers_--root_u -> units
calendar-timers_--_l -> list.timer logrotate.timer
END

try fish << 'END'
calendar-analyze_ -> calendar timestamp timespan timer help
calendar-analyze_help_ti -> timestamp timespan timer
calendar-analyze_help_calendar_d -> 
calendar-analyze_timer_ba -> backup.timer
calendar-analyze_timer_-- -> (timer)
calendar-analyze_timestamp_-- -> (timestamp)
calendar-analyze_timespan_-- -> (timespan)
calendar-analyze_calendar_--zones=A=x,Here=berlin.tz_--local= -> UTC posix: A Here
calendar-analyze_calendar_--zones_A=x,Here=berlin.tz_--local= -> UTC posix: A Here
calendar-analyze_calendar_--local=posix: -> 
calendar-analyze_calendar_d -> daily
calendar-analyze_timestamp_to -> today tomorrow
calendar-timers_l -> list lint list.timer logrotate.timer
calendar-timers_help_s -> show same
calendar-timers_help_show_l -> 
calendar-timers_show_l -> list.timer logrotate.timer
calendar-timers_lint_./ba -> ./backup.timer
calendar-timers_logrotate_li -> list.timer
calendar-timers_-- -> ()
calendar-timers_list_-- -> (list)
calendar-timers_lint_-- -> (lint)
calendar-timers_show_-- -> (show)
calendar-timers_next_-- -> (next)
calendar-timers_next_d -> daily
calendar-timers_between_to -> today tomorrow
calendar-timers_between_now_tomorrow_l -> list.timer logrotate.timer
calendar-timers_same_a_lo -> logrotate.timer
calendar-timers_due_lo -> logrotate.timer
calendar-timers_due_-- -> (due)
calendar-timers_cron_ba -> backup.timer
calendar-timers_cron_-- -> (cron)
calendar-timers_--zone= -> UTC posix:
calendar-timers_--json_show_l -> list.timer logrotate.timer
END

try zsh << 'END'
calendar-analyze_ -> calendar timestamp timespan timer help
calendar-analyze_help_ti -> timestamp timespan timer
calendar-analyze_help_calendar_d -> 
calendar-analyze_timer_ -> backup.timer units
calendar-analyze_timer_-- -> (timer)
calendar-analyze_timestamp_-- -> (timestamp)
calendar-analyze_timespan_-- -> (timespan)
calendar-analyze_calendar_--zones=A=x,Here=berlin.tz_--local= -> UTC posix: A Here
calendar-analyze_calendar_--zones_A=x,Here=berlin.tz_--local= -> UTC posix: A Here
calendar-analyze_calendar_d -> daily
calendar-analyze_timestamp_to -> today tomorrow
calendar-timers_l -> list lint list.timer logrotate.timer
calendar-timers_help_s -> show same
calendar-timers_help_show_l -> 
calendar-timers_show_l -> list.timer logrotate.timer
calendar-timers_lint_./ba -> backup.timer
calendar-timers_logrotate_li -> list.timer
calendar-timers_-- -> ()
calendar-timers_list_-- -> (list)
calendar-timers_lint_-- -> (lint)
calendar-timers_show_-- -> (show)
calendar-timers_next_-- -> (next)
calendar-timers_next_d -> daily
calendar-timers_between_to -> today tomorrow
calendar-timers_between_now_tomorrow_l -> list.timer logrotate.timer
calendar-timers_same_a_lo -> logrotate.timer
calendar-timers_due_lo -> logrotate.timer
calendar-timers_due_-- -> (due)
calendar-timers_cron_ba -> backup.timer
calendar-timers_cron_-- -> (cron)
calendar-timers_--zone= -> UTC posix:
calendar-timers_--json_show_l -> list.timer logrotate.timer
END

counts="$passed passed, $failed failed"
[ "$skipped" -eq 0 ] || counts="$counts, $skipped skipped"
echo "$counts"
[ "$failed" -eq 0 ]
