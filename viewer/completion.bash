# Completion of vogieburn-view for bash: options behind a -, and else files, behind -t and --table= too.
_vogieburn_view() {
    local word=${COMP_WORDS[COMP_CWORD]} before=${COMP_WORDS[COMP_CWORD - 1]}

    [[ $word != = ]] || word=
    if [[ $word == -* && $before != -t && $before != --table && $before != = ]]; then
        mapfile -t COMPREPLY < <(compgen -W '-t --table --list --remarks --json -h --help -V --version' -- "$word")
    else
        compopt -o filenames 2>/dev/null
        mapfile -t COMPREPLY < <(compgen -f -- "$word")
    fi
}
complete -F _vogieburn_view vogieburn-view
