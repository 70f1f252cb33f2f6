# Completion of the arguments of navtex and its tools, for bash. Which commands and options there are, and what each takes, is read from their own help.

# What may stand for a value, of a line of help as `<KIND> The words that are meant: dx, rx or all`.
_navtex_values() {
    case $1 in
        '<STATION>'* | '<LETTERS>'*) echo {A..Z} ;;
        '<MOMENT>'*) date +%s ;;
        '<TIME>'*) date -u +%F ;;
        *', '[0-9]' to '[0-9]) seq "${1: -6:1}" "${1: -1}" ;;
        *) sed -n 's/.*: \(.*\) or \(.*\)/\1 \2/p' <<< "$1" | tr -d , ;;
    esac
}

# The commands, of which the program's help has a line each.
_navtex_commands() {
    "$1" --help 2>/dev/null | sed -n 's/^  \([a-z][a-z]*\)   *[A-Z].*/\1/p'
}

_navtex() {
    local word=${COMP_WORDS[COMP_CWORD]} before=${COMP_WORDS[COMP_CWORD - 1]} program=${COMP_WORDS[0]}
    local choices='' help='' value='' name
    if ((COMP_CWORD == 1)); then
        choices="$(_navtex_commands "$program") help --help --version"
    elif [ "${COMP_WORDS[1]}" = help ]; then
        ((COMP_CWORD > 2)) || choices=$(_navtex_commands "$program")
    else
        help=$("$program" "${COMP_WORDS[1]}" -h 2>/dev/null)
        # `--channel <N>  Entries ..` is the line of an option with a value
        [[ $before != --* ]] || value=$(sed -n "s/^ *$before \(<[A-Z]*>\)  */\1 /p" <<< "$help")
        if [ -z "$value" ] && [[ $word != -* ]]; then
            # the usage of `navtex send` is `navtex send <STATION> <MOMENT>`
            name=$(awk -v at=$((COMP_CWORD + 2)) '$1 == "Usage:" { print $at }' <<< "$help")
            [[ $name != \<* ]] || value=$(sed -n "s/^ *\($name\)  */\1 /p" <<< "$help")
        fi
        case $value in
            '<FILE>'*)
                mapfile -t COMPREPLY < <(compgen -f -- "$word")
                return
                ;;
            '') choices=$(sed -n 's/^ .*\(--[a-z][a-z-]*\).*/\1/p' <<< "$help") ;;
            *) choices=$(_navtex_values "$value") ;;
        esac
        # options come where one begins, or where the command has some of its own
        [ -n "$value" ] || [[ $word == -* || $choices == *$'\n'* ]] || ((COMP_CWORD == 2)) || choices=''
    fi
    mapfile -t COMPREPLY < <(compgen -W "$choices" -- "$word")
}
# The tools: options, and of an option its values. navtex-watch hands its options on.
_navtex_tool() {
    local word=${COMP_WORDS[COMP_CWORD]} before=${COMP_WORDS[COMP_CWORD - 1]} help choices='' value=''
    help=$("${COMP_WORDS[0]/%watch/elements}" --help 2>/dev/null)
    # `--rate RATE  samples a second` is the line of an option with a value
    [[ $before != --* ]] || value=$(sed -n "s/^  $before \([A-Z{][^ ]*\).*/\1/p" <<< "$help")
    case $value in
        '{'*) choices=${value//[\{\},]/ } ;;
        MOMENT) choices=$(date -u +%FT%R) ;;
        '') [[ $word != -* ]] || choices=$(sed -n 's/^  \(-., \)\{0,1\}\(--[a-z][a-z-]*\).*/\2/p' <<< "$help") ;;
    esac
    mapfile -t COMPREPLY < <(compgen -W "$choices" -- "$word")
}
# behind < and > bash completes the names of files
complete -o default -F _navtex navtex
complete -o default -F _navtex_tool navtex-elements navtex-tones navtex-watch navtex-follow navtex-alarm
