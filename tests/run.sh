#!/bin/sh
# Runs the commands of the transcripts, and compares what they print with the transcripts.
#
#     tests/run.sh PROGRAM TIMERS [TRANSCRIPT..]
#
# A transcript is a text file in tests/transcripts/. It begins with lines that start with '#' and say what it shows. Each of
# its sections begins with a line '== NAME':
#
#     == command       commands for sh, in which calendar-analyze is PROGRAM and calendar-timers is TIMERS
#     == stdin         standard input [empty]
#     == file PATH     a file in the folder where the commands run, or in a folder below it
#     == needs PATH    a file of the machine; if it is missing, the transcript is skipped
#     == stdout        what has to be on standard output [nothing]
#     == stderr        what has to be on standard error [nothing]
#     == status N      the exit status [0]
#
# Every line of a section ends in a line feed. The last line is 'N passed, M failed', with ', K skipped' if some were, and
# the status is 1 if a transcript failed.
set -u

if [ $# -lt 2 ] || [ ! -x "$1" ] || [ ! -x "$2" ]; then
    echo 'usage: tests/run.sh PROGRAM TIMERS [TRANSCRIPT..]' >&2
    exit 2
fi
program=$1 timers=$2
shift 2
here=$(CDPATH='' cd -- "$(dirname -- "$0")" && pwd) || exit 2
[ $# -gt 0 ] || set -- "$here"/transcripts/*.txt

# These variables change which units are found, and when they run. A transcript sets those that it needs.
unset SYSTEMD_UNIT_PATH XDG_CONFIG_HOME XDG_CONFIG_DIRS XDG_DATA_HOME XDG_DATA_DIRS XDG_RUNTIME_DIR TRIGGER_UNIT TRIGGER_TIMER_REALTIME_USEC
work=$(mktemp -d) || exit 2
trap 'rm -rf "$work"' EXIT
trap 'exit 1' HUP INT TERM
mkdir "$work/bin" && cp -- "$program" "$work/bin/calendar-analyze" && cp -- "$timers" "$work/bin/calendar-timers" || exit 2

# Writes each section of a transcript to a file of its own in $work/case.
split() {
    mkdir -p "$work/case/folder" && cd "$work/case" || return 1
    touch command stdin stdout stderr needs
    echo 0 > status
    awk '
        /^== (command|stdin|stdout|stderr)$/ { to = $2; next }
        /^== file [A-Za-z0-9_.@\/-]+$/ {
            to = folder = "folder/" $3
            sub(/\/[^\/]*$/, "", folder)
            system("mkdir -p " folder)
            printf "" > to
            next
        }
        /^== needs \// { print $3 > "needs"; to = ""; next }
        /^== status [0-9]+$/ { print $3 > "status"; to = ""; next }
        /^== / { print "unknown section: " $0; exit 1 }
        to != "" { print > to }
        to == "" && !/^#/ && !/^$/ { print "line outside of a section: " $0; exit 1 }
    ' "$1" && [ -s command ]
}

run() {
    cd "$work/case/folder" || exit 1
    PATH="$work/bin:$PATH" LC_ALL=C sh ../command < ../stdin > ../stdout.found 2> ../stderr.found
    echo $? > ../status.found
}

# Prints how the run differs from the transcript.
compare() {
    status=0
    for part in stdout stderr status; do
        diff -u "$work/case/$part" "$work/case/$part.found" > "$work/diff" 2>&1 && continue
        status=1
        echo "$1: $part differs (- wanted, + found)"
        sed 1,2d "$work/diff"
    done
    return $status
}

passed=0 failed=0 skipped=0
for transcript do
    name=$(basename -- "$transcript")
    if ! (split "$(realpath -- "$transcript")"); then
        echo "$name: not a transcript"
        failed=$((failed + 1))
    elif [ -s "$work/case/needs" ] && [ ! -r "$(cat "$work/case/needs")" ]; then
        echo "$name: skipped: there is no $(cat "$work/case/needs")"
        skipped=$((skipped + 1))
    elif (run) && compare "$name"; then
        passed=$((passed + 1))
    else
        failed=$((failed + 1))
    fi
    rm -rf "$work/case"
done
counts="$passed passed, $failed failed"
[ "$skipped" -eq 0 ] || counts="$counts, $skipped skipped"
echo "$counts"
[ "$failed" -eq 0 ]
