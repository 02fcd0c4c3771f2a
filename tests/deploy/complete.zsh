# Prints zsh's completions at the end of each line of standard input, after the line and a colon: zsh -f complete.zsh FOLDER SCRATCH
# It is part of the tests. FOLDER contains the file _extractd, and SCRATCH is an empty folder. The shell runs on a pseudo-terminal.
zmodload zsh/zpty
zmodload zsh/zselect
integer waited
answer=$2/answer
: > $answer
cat > $2/.zshrc <<END
PROMPT= RPROMPT= LISTMAX=100000
setopt no_auto_list no_beep no_list_ambiguous
fpath=(${(q)1} \$fpath)
autoload -Uz compinit
compinit -u -d ${(q)2}/dump
zstyle ':completion:*' completer _complete
compadd() {
    local -a found=()
    if [[ " \${@[1,(i)(-|--)]} " != *" -"[OAD]" "* ]]; then
        builtin compadd -O found "\$@"
        (( ! \$#found )) || print -rl -- \$found >> ${(q)answer}
    fi
    builtin compadd "\$@"
}
# Both report that the shell is ready for more input: the first at its prompt, the other when ^G follows a completion. The line editor
# stays active, so the terminal takes no key for itself.
zle-line-init() { print -- :end >> ${(q)answer} }
zle -N zle-line-init
report() { BUFFER=; print -- :end >> ${(q)answer} }
zle -N report
bindkey '^G' report
END
# ready TEXT: waits until the shell has processed its input.
ready() {
    for ((waited = 0; waited < 3000; waited++)); do
        [[ $(< $answer) != *:end ]] || return 0
        zselect -t 1
        zpty -r -t shell said
    done
    print -u 2 "zsh doesn't answer: $1"
    exit 1
}
export ZDOTDIR=$2 TERM=dumb
zpty -b shell zsh -d -i
ready 'its prompt'
while IFS= read -r line; do
    : > $answer
    zpty -w -n shell $line$'\t\a'
    ready $line
    print -r -- "$line:" ${(ou)${(f)"$(< $answer)"}:#:end}
done
zpty -d shell
