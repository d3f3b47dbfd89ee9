# complete.zsh SITE LINE FILE: what zsh makes of a line that begins with a command of SITE, when it completes the last word: a line for
# each match, as it is put in. A shell in a terminal writes them to FILE. Run by examples_shells.py.
zmodload zsh/zpty
zpty shell zsh -f -i
zpty -w shell "fpath=(${(q)1} \$fpath); autoload -U compinit; compinit -u -D; pick() { count=\$compstate[nmatches] compstate[insert]=\$at }"
zpty -w shell "each() { local line=\$BUFFER at count; { for ((at = 1, count = 1; at <= count; at++)) {
    BUFFER=\$line CURSOR=\$#line comppostfuncs=(pick); zle complete-word; ((count == 0)) || print -r -- \$BUFFER } } >${(q)3}; exit }
zle -N each; bindkey '^I' each"
zpty -w -n shell $2$'\t'
# up to its end
zpty -r shell said '*no such text*'
cat $3
