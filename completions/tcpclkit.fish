# Completions of tcpclkit for fish.

# Whether the first word is the tool, and the option was not given after it. If the option takes a
# value, a third argument is given: while the value is typed, the option counts as not given.
function __tcpclkit_takes -a tool option value
    set -l words (commandline -opc)
    test -n "$value" -a "$words[-1]" = --$option; and set -e words[-1]
    test "$words[2]" = $tool; and not string match -qr -- "^--$option(=|\$)" $words
end

# Whether no tool is given yet.
function __tcpclkit_begins
    test (count (commandline -opc)) -eq 1
end

# Whether help was asked for, and whether no tool is named after that yet.
function __tcpclkit_helps
    test "$(commandline -opc)[2]" = help
end
function __tcpclkit_asks_for_help
    __tcpclkit_helps; and test (count (commandline -opc)) -eq 2
end

complete -c tcpclkit -f
complete -c tcpclkit -s h -l help -d 'Print help'
complete -c tcpclkit -n __tcpclkit_begins -s V -l version -d 'Print version'
complete -c tcpclkit -n __tcpclkit_begins -a list -d 'Writes a line for the contact header and each message of a recording'
complete -c tcpclkit -n __tcpclkit_begins -a unpack -d "Writes the data of a recording's transfers"
complete -c tcpclkit -n __tcpclkit_begins -a blocks -d 'Writes a line for each block of the bundles in a recording'
complete -c tcpclkit -n __tcpclkit_begins -a check -d 'Writes a line for each judged rule of the RFCs that a recording breaks'
complete -c tcpclkit -n __tcpclkit_begins -a pack -d 'Writes bundles as the stream of a sender'

complete -c tcpclkit -n __tcpclkit_begins -a help -d 'Print this message or the help of the given subcommand'
complete -c tcpclkit -n __tcpclkit_asks_for_help -a 'list unpack blocks check pack'

complete -c tcpclkit -n 'not __tcpclkit_begins; and not __tcpclkit_helps' -F

complete -c tcpclkit -n '__tcpclkit_takes unpack transfer VALUE' -x -l transfer -d 'The ID of the transfers whose data is written'
complete -c tcpclkit -n '__tcpclkit_takes unpack payload' -l payload -d 'Write the payload of each bundle alone'
complete -c tcpclkit -n '__tcpclkit_takes unpack keep-going' -l keep-going -d 'Go on after a fault of the order of messages'

complete -c tcpclkit -n '__tcpclkit_takes blocks transfer VALUE' -x -l transfer -d 'The ID of the transfers whose lines are written'
complete -c tcpclkit -n '__tcpclkit_takes blocks keep-going' -l keep-going -d 'Go on after a fault of the order of messages'
complete -c tcpclkit -n '__tcpclkit_takes blocks bundles' -l bundles -d 'Read bundles, one after another, in place of a recording'

complete -c tcpclkit -n '__tcpclkit_takes check must' -l must -d 'Leave out the rules of level should'
complete -c tcpclkit -n '__tcpclkit_takes check own VALUE' -x -l own -d 'The node whose bundles and security blocks are judged'
complete -c tcpclkit -n '__tcpclkit_takes check peer-segment VALUE' -x -l peer-segment -d 'The longest segment that the peer takes'
complete -c tcpclkit -n '__tcpclkit_takes check peer-transfer VALUE' -x -l peer-transfer -d 'The longest transfer that the peer takes'
complete -c tcpclkit -n '__tcpclkit_takes check bundles' -l bundles -d 'Read bundles, one after another, in place of a recording'

complete -c tcpclkit -n '__tcpclkit_takes pack node VALUE' -x -l node -d "The sender's node ID"
complete -c tcpclkit -n '__tcpclkit_takes pack keepalive VALUE' -x -l keepalive -d 'The keepalive interval in seconds'
complete -c tcpclkit -n '__tcpclkit_takes pack segment-mru VALUE' -x -l segment-mru -d 'The longest segment that the sender takes'
complete -c tcpclkit -n '__tcpclkit_takes pack transfer-mru VALUE' -x -l transfer-mru -d 'The longest transfer that the sender takes'
complete -c tcpclkit -n '__tcpclkit_takes pack peer-segment VALUE' -x -l peer-segment -d 'The longest segment that the peer takes'
complete -c tcpclkit -n '__tcpclkit_takes pack peer-transfer VALUE' -x -l peer-transfer -d 'The longest transfer that the peer takes'
complete -c tcpclkit -n '__tcpclkit_takes pack announce VALUE' -x -l announce -d 'Announce the length of bundles of more than one segment and at most N bytes'
complete -c tcpclkit -n '__tcpclkit_takes pack end' -l end -d 'End the stream with SESS_TERM'
