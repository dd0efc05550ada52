# shellcheck shell=bash
# Completions of the command kohlenfloh, for bash.
_kohlenfloh() {
    local word=${COMP_WORDS[COMP_CWORD]} before=${COMP_WORDS[COMP_CWORD - 1]}
    COMPREPLY=()
    # Bash cuts a word at `=`: what follows one is the value of the option before it.
    if [ "$word" = = ]; then word='' before=${COMP_WORDS[COMP_CWORD - 1]}; fi
    if [ "$before" = = ]; then before=${COMP_WORDS[COMP_CWORD - 2]}; fi
    case $before in
        --index | --palette | --preview | --sheet | --csv | --json)
            compopt -o filenames
            mapfile -t COMPREPLY < <(compgen -f -- "$word")
            return
            ;;
        --limit | --in-use | --fixed) return ;;
    esac
    if [ "$COMP_CWORD" -eq 1 ]; then
        mapfile -t COMPREPLY < <(compgen -W 'shades --help --version' -- "$word")
    elif [[ $word == -* ]]; then
        mapfile -t COMPREPLY < <(compgen -W '--limit --in-use --jancey --fixed --index --palette --preview --sheet --csv
            --json --help --version' -- "$word")
    else
        compopt -o filenames
        mapfile -t COMPREPLY < <(compgen -f -X '!*.ppm' -- "$word"; compgen -d -- "$word")
    fi
}
complete -F _kohlenfloh kohlenfloh
