#!/bin/sh
# Tests ./pack: packs both programs twice, compares the bytes, and tries what is in the archive and in the Debian package.
#
#     tests/pack.sh PROGRAM TIMERS
#
# PROGRAM is calendar-analyze, and TIMERS is calendar-timers.
# ./pack runs in copies of the repository in a temporary folder. Steps that need dpkg-deb or lintian are skipped if it is
# missing. The last line is 'N passed, M failed', with ', K skipped' if some were, and the status is 1 if a step failed.
set -u

if [ $# -ne 2 ] || [ ! -x "$1" ] || [ ! -x "$2" ]; then
    echo 'usage: tests/pack.sh PROGRAM TIMERS' >&2
    exit 2
fi
program=$1 timers=$2
here=$(CDPATH='' cd -- "$(dirname -- "$0")/.." && pwd) || exit 2
scratch=$(mktemp -d) || exit 2
trap 'rm -rf "$scratch"' EXIT
trap 'exit 1' HUP INT TERM
unset SOURCE_DATE_EPOCH MAINTAINER PREFIX DESTDIR
passed=0 failed=0 skipped=0

# Counts a step by the status of the command before it; the second argument says what went wrong.
step() {
    if [ "$1" -eq 0 ]; then
        passed=$((passed + 1))
    else
        failed=$((failed + 1))
        echo "tests/pack.sh: $2"
    fi
}

skip() {
    skipped=$((skipped + 1))
    echo "tests/pack.sh: skipped: $1"
}

# Prints the files that have to be below the prefix; the argument is the folder of the completion of zsh.
wanted_files() {
    cat << END
bin/calendar-analyze
bin/calendar-timers
share/bash-completion/completions/calendar-analyze
share/bash-completion/completions/calendar-timers
share/doc/calendar-analyze/CONTRIBUTING.md
share/doc/calendar-analyze/LICENSE
share/doc/calendar-analyze/README.md
share/doc/calendar-analyze/changelog.gz
share/doc/calendar-analyze/copyright
END
    for page in DECISIONS DIFFERENCES GLOSSARY GRAMMAR HEADLINE MAP PROVED RECIPES SPEED TIMERS TIMESPANS TIMESTAMPS; do
        echo "share/doc/calendar-analyze/docs/$page.md"
    done
    cat << END
share/fish/vendor_completions.d/calendar-analyze.fish
share/fish/vendor_completions.d/calendar-timers.fish
share/man/man1/calendar-analyze.1.gz
share/man/man1/calendar-timers.1.gz
share/zsh/$1/_calendar-analyze
share/zsh/$1/_calendar-timers
END
}

# Tries the files below a prefix. The arguments are the prefix, the folder for the completion of zsh, and what was
# unpacked.
try_files() {
    (cd -- "$1" && find bin share -type f | LC_ALL=C sort) > "$scratch/found"
    wanted_files "$2" | diff - "$scratch/found"
    step $? "$3 has other files"
    [ -z "$(find "$1" ! -perm -444)" ] && [ -z "$(find "$1" -type d ! -perm -555)" ] && [ -z "$(find "$1" -perm /022 ! -type l)" ]
    step $? "$3 has a file that some users cannot read or that others can write"
    [ "$("$1/bin/calendar-analyze" calendar --now=@1552651200 '*-2-29' | sed -n 3p)" = '    Next elapse: Sat 2020-02-29 00:00:00 UTC' ]
    step $? "calendar-analyze of $3 does not run"
    [ "$("$1/bin/calendar-timers" --root="$1" --utc)" = 'no timers' ]
    step $? "calendar-timers of $3 does not run"
    for page in calendar-analyze.1 calendar-timers.1; do
        gzip -dc "$1/share/man/man1/$page.gz" | cmp -s - "$here/man/$page"
        step $? "$3 has another manual page $page"
    done
    gzip -dc "$1/share/doc/calendar-analyze/changelog.gz" | head -n 1 | grep -Fqx "calendar-analyze ($version) unstable; urgency=medium"
    step $? "the changelog of $3 does not begin with the version"
}

# Packs two copies that differ in the times of their files, the umask, the time zone and the language.
try_twice() {
    for copy in one two; do
        mkdir "$scratch/$copy" || exit 2
        for file in pack install man completions packaging docs LICENSE README.md CONTRIBUTING.md CHANGELOG.md; do
            cp -R -- "$here/$file" "$scratch/$copy/" || exit 2
        done
    done
    "$scratch/one/pack" "$scratch/first" > "$scratch/said" 2>&1
    [ $? -eq 2 ] && grep -q 'run ./build first' "$scratch/said" && [ ! -e "$scratch/first" ]
    step $? 'without a program it does not say that ./build has to be run'
    for copy in one two; do
        cp -- "$program" "$scratch/$copy/calendar-analyze" && cp -- "$timers" "$scratch/$copy/calendar-timers" || exit 2
    done
    find "$scratch/two" -exec touch -d 2001-02-03 {} + || exit 2
    (umask 077 && cd / && TZ=UTC-9 "$scratch/one/pack" "$scratch/first") > "$scratch/said" 2> /dev/null
    step $? 'it fails'
    ln -s two/pack "$scratch/by-link" && LC_ALL=C.UTF-8 "$scratch/by-link" > /dev/null 2>&1
    step $? 'it fails without a folder and by a symlink'
    [ "$(LC_ALL=C sort "$scratch/said")" = "$(find "$scratch/first" -type f | LC_ALL=C sort)" ]
    step $? 'the files that it prints are not those that it makes'
    diff -r "$scratch/first" "$scratch/two/dist"
    step $? 'two runs make different files'
}

try_arguments() {
    : > "$scratch/file"
    for words in --other 'one two' "$scratch/file"; do
        # shellcheck disable=SC2086 # one argument or two
        "$scratch/one/pack" $words > /dev/null 2> "$scratch/said"
        [ $? -eq 2 ] && [ "$(wc -l < "$scratch/said")" -eq 1 ]
        step $? "the arguments $words are accepted"
    done
    "$scratch/one/pack" --help > "$scratch/said" && grep -q '^usage: ./pack' "$scratch/said" && [ ! -e "$scratch/one/dist" ]
    step $? '--help does not print help'
    SOURCE_DATE_EPOCH=today "$scratch/one/pack" "$scratch/today" > /dev/null 2>&1
    [ $? -eq 2 ] && [ ! -e "$scratch/today" ]
    step $? 'SOURCE_DATE_EPOCH=today is accepted'
}

try_archive() {
    mkdir "$scratch/unpacked" && gzip -dc "$scratch/first/$archive" | tar -C "$scratch/unpacked" -xf - || exit 2
    [ "$(ls "$scratch/unpacked")" = "${archive%.tar.gz}" ]
    step $? 'the archive has more than one folder'
    try_files "$scratch/unpacked/${archive%.tar.gz}" site-functions 'the archive'
    for library in $(sed 's/#.*//; s/.*://' "$here/crates.txt" | tr ' ' '\n' | sort -u | grep -Ev '^(cal_.*|json|)$'); do
        grep '^Files:' "$here/packaging/copyright" | grep -qw "$library/\*"
        step $? "the copyright file does not name $library"
    done
}

try_package() {
    dpkg-deb -x "$scratch/first/$package" "$scratch/root" && dpkg-deb -e "$scratch/first/$package" "$scratch/control"
    step $? 'the package cannot be unpacked'
    try_files "$scratch/root/usr" vendor-completions 'the package'
    for field in "Version: $version" 'Depends: libc6 (>= 2.34)' 'Architecture: amd64'; do
        grep -Fqx "$field" "$scratch/control/control"
        step $? "the package has no $field"
    done
    (cd -- "$scratch/root" && md5sum --quiet -c "$scratch/control/md5sums")
    step $? 'the checksums of the package are wrong'
    ! dpkg-deb -c "$scratch/first/$package" | grep -v ' root/root '
    step $? 'the package has files of other users than root'
    if command -v lintian > /dev/null; then
        ! lintian "$scratch/first/$package" 2>&1 | grep '^E:'
        step $? 'lintian finds errors'
    else
        skip 'lintian is missing'
    fi
}

version=$("$program" --version) || exit 2
version=${version#calendar-analyze }
archive=calendar-analyze-$version-amd64.tar.gz
package=calendar-analyze_${version}_amd64.deb
try_twice
try_arguments
try_archive
if command -v dpkg-deb > /dev/null; then
    try_package
else
    skip 'dpkg-deb is missing, so there is no Debian package'
fi
counts="$passed passed, $failed failed"
[ "$skipped" -eq 0 ] || counts="$counts, $skipped skipped"
echo "$counts"
[ "$failed" -eq 0 ]
