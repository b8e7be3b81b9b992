# Prints what zsh offers for the last word of a line, sorted. An interactive zsh on a terminal of its own reads this file
# too, and makes the offers.
#
# usage: zsh -f completed.zsh FOLDER LINE   FOLDER has the file _kcore
if [[ -o interactive ]]; then
    autoload -Uz compinit
    compinit -u -D
    compadd() {
        local -a offered
        case " $* " in *' -'[OAD]' '*) builtin compadd "$@"; return ;; esac
        builtin compadd -O offered "$@"
        (( $#offered )) && print -rl -- '<'$^offered'>'
        builtin compadd "$@"
    }
    finish() { print -r -- '<end>'; exit; }
    comppostfuncs=(finish)
    bindkey '^I' complete-word
    print -r -- '<begun>'
    return
fi
zmodload zsh/zpty
zpty child zsh -f -i
zpty -w child "fpath=(${(q)1} \$fpath); source ${(q)0:A}"
zpty -r child said '*<begun>*'
zpty -w -n child "$2"$'\t'
zpty -r child said '*<end>*'
print -r -- $said | tr -d '\r' | sed -n 's/.*<\(.*\)>$/\1/p' | grep -vx -e end -e begun | LC_ALL=C sort
