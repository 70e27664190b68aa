#!/bin/sh
# Tests ./install: installs both programs, runs them from there, removes them, and checks that no file is left.
#
#     tests/install.sh PROGRAM TIMERS
#
# PROGRAM is calendar-analyze, and TIMERS is calendar-timers. ./install runs in a copy of the repository that has both,
# and installs below a temporary folder. The last line is 'N passed, M failed', and the status is 1 if a step failed.
set -u

if [ $# -ne 2 ] || [ ! -x "$1" ] || [ ! -x "$2" ]; then
    echo 'usage: tests/install.sh PROGRAM TIMERS' >&2
    exit 2
fi
program=$1 timers=$2
here=$(CDPATH='' cd -- "$(dirname -- "$0")/.." && pwd) || exit 2
scratch=$(mktemp -d) || exit 2
trap 'rm -rf "$scratch"' EXIT
trap 'exit 1' HUP INT TERM
mkdir "$scratch/clone" "$scratch/root" || exit 2
for file in install man completions packaging docs LICENSE README.md CONTRIBUTING.md; do
    cp -R -- "$here/$file" "$scratch/clone/" || exit 2
done
install=$scratch/clone/install
# Every call below has a DESTDIR, so that nothing is installed outside.
export DESTDIR="$scratch/root" PREFIX=/usr
passed=0 failed=0
# The programs, their manual pages, three completions each, README, CONTRIBUTING and twelve more pages, LICENSE, and the
# copyright file.
count=26

# Counts a step by the status of the command before it; the second argument says what went wrong.
step() {
    if [ "$1" -eq 0 ]; then
        passed=$((passed + 1))
    else
        failed=$((failed + 1))
        echo "tests/install.sh: $2"
    fi
}

files() {
    find "$DESTDIR" ! -type d | LC_ALL=C sort
}

try_install() {
    "$install" 2> "$scratch/said"
    [ $? -eq 1 ] && grep -q 'run ./build first' "$scratch/said" && [ -z "$(files)" ]
    step $? 'without a program it does not say that ./build has to be run'
    cp -- "$program" "$scratch/clone/calendar-analyze" && cp -- "$timers" "$scratch/clone/calendar-timers" || exit 2
    (umask 077 && "$install") > "$scratch/said" && [ "$(LC_ALL=C sort "$scratch/said")" = "$(files)" ] &&
        [ "$(files | wc -l)" -eq $count ]
    step $? 'the files that it prints are not those that it installs'
    [ -z "$(find "$DESTDIR/usr" ! -perm -444)" ] && [ -z "$(find "$DESTDIR/usr" -type d ! -perm -555)" ]
    step $? 'some users cannot read what it installs'
    [ "$("$DESTDIR/usr/bin/calendar-analyze" timespan 300s | tail -n 1)" = '   Human: 5min' ]
    step $? 'the installed calendar-analyze does not run'
    [ "$("$DESTDIR/usr/bin/calendar-timers" --root="$DESTDIR" --utc)" = 'no timers' ]
    step $? 'the installed calendar-timers does not run'
    for page in calendar-analyze.1 calendar-timers.1; do
        cmp "$DESTDIR/usr/share/man/man1/$page" "$here/man/$page"
        step $? "the manual page $page is not installed"
    done
    for page in README.md CONTRIBUTING.md LICENSE docs/GRAMMAR.md docs/PROVED.md; do
        cmp "$DESTDIR/usr/share/doc/calendar-analyze/$page" "$here/$page"
        step $? "$page is not installed"
    done
    dead=$(dead_links "$DESTDIR/usr/share/doc/calendar-analyze")
    [ -z "$dead" ]
    step $? "links of installed pages lead to files that are not installed: $dead"
    "$install" > /dev/null && [ "$(files | wc -l)" -eq $count ]
    step $? 'it does not install over an earlier installation'
}

# Prints the links of the pages below a folder that lead to no file.
dead_links() {
    (cd -- "$1" && grep -Ero --include='*.md' '\]\([^)#:]+[)#]' .) | while IFS= read -r link; do
        page=${link%%:*} target=${link#*](}
        [ -e "$1/$(dirname -- "$page")/${target%[)#]}" ] || printf '%s\n' "$link"
    done
}

try_remove() {
    : > "$DESTDIR/usr/share/man/man1/other.1"
    "$install" --remove > "$scratch/said" && [ "$(files)" = "$DESTDIR/usr/share/man/man1/other.1" ] &&
        [ "$(grep -c '^removed /' "$scratch/said")" -eq $count ]
    step $? '--remove removes too little or too much'
    [ ! -e "$DESTDIR/usr/share/doc/calendar-analyze" ]
    step $? '--remove leaves the folder of the pages'
    "$install" --remove > "$scratch/said" && [ ! -s "$scratch/said" ]
    step $? '--remove fails if nothing is installed'
    rm -r "${DESTDIR:?}/usr" || exit 2
}

# Each row has a value of PREFIX and a file that is then installed.
try_prefixes() {
    while IFS='|' read -r prefix file; do
        PREFIX=$prefix "$install" > /dev/null 2>&1 && [ -f "$DESTDIR$file" ]
        step $? "with PREFIX=$prefix there is no $file"
        PREFIX=$prefix "$install" --remove > /dev/null && [ -z "$(files)" ]
        step $? "with PREFIX=$prefix --remove leaves files"
    done << 'END'
/my tools|/my tools/bin/calendar-analyze
/srv/tools/|/srv/tools/share/fish/vendor_completions.d/calendar-analyze.fish
/usr/local|/etc/fish/completions/calendar-analyze.fish
|/usr/local/bin/calendar-analyze
END
}

# The shells that don't look for completions below a prefix are named on standard error, and no others.
try_shells() {
    export HOME=/users/me
    for row in '/usr ' '/usr/local ' '/users/me/.local zsh' '/srv/tools bash fish zsh'; do
        PREFIX=${row%% *} "$install" 2> "$scratch/said" > /dev/null
        shells=$(sed -n 's/^install: for the completion of \([a-z]*\) .*/\1/p' "$scratch/said" | sort -u | xargs)
        [ "$shells" = "${row#* }" ]
        step $? "with PREFIX=${row%% *} it names the shells: $shells"
        PREFIX=${row%% *} "$install" --remove > /dev/null
    done
}

try_arguments() {
    for words in --other 'one two' '--remove all'; do
        # shellcheck disable=SC2086 # one argument or two
        "$install" $words 2> "$scratch/said"
        [ $? -eq 2 ] && [ "$(wc -l < "$scratch/said")" -eq 1 ] && [ -z "$(files)" ]
        step $? "the arguments $words are accepted"
    done
    PREFIX=tools "$install" > /dev/null 2>&1
    [ $? -eq 2 ] && [ -z "$(files)" ]
    step $? 'a relative PREFIX is accepted'
    "$install" --help > "$scratch/said" && grep -q '^usage: ./install' "$scratch/said" && [ -z "$(files)" ]
    step $? '--help does not print help'
    ln -s "$install" "$scratch/by-link" && "$scratch/by-link" > /dev/null && [ "$(files | wc -l)" -eq $count ]
    step $? 'it does not run by a symlink'
    rm -r "${DESTDIR:?}/usr" && : > "$DESTDIR/usr" || exit 2
    ! "$install" > /dev/null 2>&1
    step $? 'the status is 0 if it cannot install a file'
}

try_install
try_remove
try_prefixes
try_shells
try_arguments
echo "$passed passed, $failed failed"
[ "$failed" -eq 0 ]
