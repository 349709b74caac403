# offers.zsh runs this in its terminal: completion whose offers are printed.
PS1= PS2= RPS1=
fpath=($completions $fpath)
autoload -Uz compinit; compinit -u -D
compadd() {
    if [[ ${@[1,(i)(-|--)]} == *-(O|A|D)\ * ]]; then builtin compadd "$@"; return; fi
    local -a hits; local hit
    builtin compadd -A hits "$@"
    for hit in $hits; do print -r -- "offered: $hit"; done
}
begin() { print }
finish() { print "no more"; exit }
compprefuncs=(begin) comppostfuncs=(finish)
zstyle ":completion:*" insert-tab false
bindkey "^I" complete-word
