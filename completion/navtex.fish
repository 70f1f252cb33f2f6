# Completion of the arguments of navtex and its tools, for fish. Which commands and options there are, and what each takes, is read from their own help.

# Each command and, behind a tab, what it does.
function __navtex_commands
    navtex --help 2>/dev/null | string replace --regex --filter '^  ([a-z]+)  +([A-Z].*)' '$1\t$2'
end

# Each option of the command and, behind a tab, what it does.
function __navtex_options
    set --local given (commandline --tokenize --cut-at-cursor --current-process)
    navtex $given[2] -h 2>/dev/null | string replace --regex --filter '^ .*(--[a-z-]+)(?: <[A-Z]+>)? +(.*)' '$1\t$2'
end

# The line of help of the value at hand, as `<KIND> The words that are meant: dx, rx or all`.
function __navtex_value
    set --local given (commandline --tokenize --cut-at-cursor --current-process)
    test (count $given) -ge 2
    or return
    set --local help (navtex $given[2] -h 2>/dev/null)
    # `--channel <N>  Entries ..` is the line of an option with a value
    set --local value (string match --regex --groups-only "^ *$given[-1] (<[A-Z]+> .*)" -- $help)
    if test -z "$value"
        # the usage of `navtex send` is `navtex send <STATION> <MOMENT>`
        set --local usage (string match 'Usage:*' -- $help | string split ' ')
        set --local at (math (count $given) + 2)
        test (count $usage) -ge $at
        and string match --quiet '<?*' -- $usage[$at]
        and set value (string match --regex --groups-only "^ *($usage[$at] .*)" -- $help)
    end
    string replace --regex '> +' '> ' -- $value
end

# What may stand for the value at hand.
function __navtex_values
    set --local value (__navtex_value)
    switch "$value"
        case '<STATION>*' '<LETTERS>*'
            string split '' ABCDEFGHIJKLMNOPQRSTUVWXYZ
        case '<MOMENT>*'
            date +%s
        case '<TIME>*'
            date -u +%F
        case '<FILE>*'
            __fish_complete_path (commandline --current-token)
        case '*, ? to ?'
            seq (string match --regex --groups-only '([0-9]) to ([0-9])$' -- $value)
        case '*: * or *'
            string match --regex --all '\w+' -- (string replace --regex '.*: (.*) or (.*)' '$1, $2' -- $value)
    end
end

# The help of a tool; navtex-watch hands its options on.
function __navtex_tool_help
    set --local given (commandline --tokenize --cut-at-cursor --current-process)
    set --local tool (string replace --regex 'watch$' elements -- $given[1])
    $tool --help 2>/dev/null
end

# What may stand for the value at hand, of a line of help as `--channel {0,1,2}  write lines ..`.
function __navtex_tool_values
    set --local given (commandline --tokenize --cut-at-cursor --current-process)
    set --local value (__navtex_tool_help | string match --regex --groups-only "^  $given[-1] ([A-Z{]\S*)")
    switch "$value"
        case '{*'
            string split , -- (string trim --chars '{}' -- $value)
        case MOMENT
            date -u +%FT%R
    end
end

# Each option of a tool and, behind a tab, what it does.
function __navtex_tool_options
    __navtex_tool_help | string replace --regex --filter '^  (?:-., )?(--[a-z][a-z-]*)(?: [A-Z{]\S*)? *(.*)' '$1\t$2'
end

for tool in navtex-elements navtex-tones navtex-watch navtex-follow navtex-alarm
    complete -c $tool -n 'string match --quiet -- "-*" (commandline --current-token)' -a '(__navtex_tool_options)'
    complete -c $tool -a '(__navtex_tool_values)'
end

complete -c navtex -f
complete -c navtex -l help -d 'Say what the commands are, or what a command reads and writes'
complete -c navtex -n __fish_use_subcommand -l version -d 'Write the version, and with which logic it was proved'
complete -c navtex -n __fish_use_subcommand -a '(__navtex_commands)'
complete -c navtex -n __fish_use_subcommand -a help -d 'Say what a command reads and writes'
complete -c navtex -n '__fish_seen_subcommand_from help' -a '(__navtex_commands)'
complete -c navtex -n 'not __fish_use_subcommand; and string match --quiet -- "-*" (commandline --current-token)' -a '(__navtex_options)'
complete -c navtex -n 'not __fish_use_subcommand' -a '(__navtex_values)'
