# Prints what zsh offers after a line. It completes only on a terminal; each offer passes through compadd.
#
# usage: completions=DIRECTORY zsh -f offers.zsh LINE

zmodload zsh/zpty
zpty child zsh -f -i
zpty -w child ". ${(q)0:A:h}/setup.zsh; print ready''"
while zpty -r child line; do [[ $line = *ready[$'\r\n']* ]] && break; done
zpty -w -n child "$1"$'\t'
while zpty -r child line; do
    print -r -- "${line%%[$'\r\n']#}"
    [[ $line = *'no more'* ]] && break
done
zpty -d child
