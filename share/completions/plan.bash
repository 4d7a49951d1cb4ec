# Completion of plan(1) in bash: options, plan files and folders; any file after < or >. plan takes one word.
_plan() {
    local word=${COMP_WORDS[COMP_CWORD]} before=${COMP_WORDS[COMP_CWORD - 1]}
    COMPREPLY=()
    case $COMP_CWORD:$before:$word in
    *:*[\<\>]*:*) mapfile -t COMPREPLY < <(compgen -f -- "$word") ;;
    1:*:-*) mapfile -t COMPREPLY < <(compgen -W '- -h --help --version' -- "$word") ;;
    1:*) mapfile -t COMPREPLY < <(compgen -d -- "$word"; compgen -f -X '!*.plan' -- "$word") ;;
    esac
}
complete -o filenames -F _plan plan
