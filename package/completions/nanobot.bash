# Completion of nanobot's commands and files for bash: source this file, or put it into
# share/bash-completion/completions/nanobot below a prefix.
_nanobot() {
    local word=${COMP_WORDS[COMP_CWORD]} kinds=
    COMPREPLY=()
    case $COMP_CWORD in
    1) kinds='run check asm dis make plan exercise debug' ;;
    2) case ${COMP_WORDS[1]} in
        plan) kinds='layer group crew void low swarm' ;;
        run) kinds='light -' ;;
        make | exercise) return ;;
        esac ;;
    3) case ${COMP_WORDS[1]} in
        plan) case ${COMP_WORDS[2]} in low | swarm) kinds='-' ;; layer | group | crew) kinds='-' ;; esac ;;
        run) kinds='-' ;;
        make | exercise) return ;;
        esac ;;
    4) case ${COMP_WORDS[1]} in
        plan) case ${COMP_WORDS[2]} in void) kinds='-' ;; layer | group | crew) kinds='-' ;; esac ;;
        run) [[ ${COMP_WORDS[2]} != light ]] || kinds='-' ;;
        esac ;;
    esac
    mapfile -t COMPREPLY < <(compgen -W "$kinds" -- "$word")
    # The first word of a command, and the kind of a plan, are no files; what has to be `-` is nothing else.
    case "$COMP_CWORD ${COMP_WORDS[1]} ${COMP_WORDS[2]-}" in
    1\ * | 2\ plan\ * | 3\ plan\ low | 3\ plan\ swarm | 4\ plan\ void) return ;;
    esac
    mapfile -t -O "${#COMPREPLY[@]}" COMPREPLY < <(compgen -f -- "$word")
}
complete -o filenames -F _nanobot nanobot ./nanobot
