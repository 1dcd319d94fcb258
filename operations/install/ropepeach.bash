# Completion of the command ropepeach for bash: the command names its own words, and bash its files.
_ropepeach() {
    mapfile -t COMPREPLY < <(ropepeach complete -- "${COMP_WORDS[@]:1:COMP_CWORD}" 2>/dev/null)
}
complete -o bashdefault -o default -F _ropepeach ropepeach
