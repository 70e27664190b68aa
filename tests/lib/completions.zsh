# Prints what zsh offers at the end of a line, one word in each line. tests/completions.sh calls this with the folder of
# the completions and the line. The units of calendar-timers are those in `../system`. A second shell, on a terminal of
# its own, gets the line and a tab. There `compadd` prints the words.
zmodload zsh/zpty
zpty shell zsh -f -i
zpty -w shell "PROMPT=; fpath=(${(q)1} \$fpath); autoload -U compinit; compinit -u -D; bindkey '^I' complete-word
mark () { print -r - '<offered>' }; compprefuncs=(mark); comppostfuncs=(mark exit); zstyle ':completion:*' insert-tab false
compadd () {
    if [[ \${@[1,(i)(-|--)]} == *-(O|A|D)\\ * ]]; then builtin compadd \"\$@\"; return; fi
    local -a offered; builtin compadd -A offered \"\$@\"; builtin compadd \"\$@\"; [[ -n \$offered ]] && print -lr -- \$offered
}
_calendar-timers-folders () { reply=(../system) }
print is''ready"
repeat 600; do zpty -r -t shell text && [[ $text == *isready* ]] && break; sleep 0.05; done
zpty -w -n shell "$2"$'\t'
text=
repeat 600; do
    while zpty -r -t shell more; do text+=$more; done
    [[ $text == *'<offered>'*'<offered>'* ]] && break
    sleep 0.05
done
zpty -d shell
text=${${text#*<offered>}%%<offered>*}
print -r -- ${text//$'\r'/}
