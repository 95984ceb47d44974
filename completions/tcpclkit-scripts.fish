# Completions of the scripts of tcpclkit for fish.

for script in capture split pair resync json faults check-session page probe
    complete -c tcpclkit-$script -s h -l help -d 'write this text, and do nothing else'
end

complete -c tcpclkit-capture -n 'not __fish_contains_opt check' -l check -d 'write the rules that each side breaks'
complete -c tcpclkit-capture -n 'not __fish_contains_opt page' -l page -d 'write a page of each session'
complete -c tcpclkit-capture -n 'not __fish_contains_opt own' -l own -d 'judge only what its own node wrote'
complete -c tcpclkit-capture -x -l port -d 'the port of TCPCL'
complete -c tcpclkit-capture -r -l tcpclkit -d 'the program that reads the recordings'

complete -c tcpclkit-split -n 'not __fish_contains_opt keep-going' -l keep-going -d 'go on after a fault of the order of messages'
complete -c tcpclkit-split -r -l tcpclkit -d 'the program that reads the recordings'

complete -c tcpclkit-pair -x -l closed -a 'a b ab' -d 'these sides closed the connection'
complete -c tcpclkit-pair -r -l tcpclkit -d 'the program that reads the recordings'

complete -c tcpclkit-resync -r -s o -l output -d 'write a recording to this file'
complete -c tcpclkit-resync -n 'not __fish_contains_opt start' -l start -d 'begin only with an XFER_SEGMENT that has START'
complete -c tcpclkit-resync -x -l longest -d 'the greatest length that a segment may have'

complete -c tcpclkit-check-session -r -l times -d 'when the bytes of both sides were captured'
complete -c tcpclkit-check-session -x -l closed -a 'a b ab' -d 'these sides closed the connection'
complete -c tcpclkit-check-session -n 'not __fish_contains_opt must' -l must -d 'write lines of level `must` alone'
complete -c tcpclkit-check-session -n 'not __fish_contains_opt own' -l own -d 'judge only what its own node wrote'
complete -c tcpclkit-check-session -r -l tcpclkit -d 'the program that reads the recordings'

complete -c tcpclkit-page -r -s o -l output -d 'write the page to this file'
complete -c tcpclkit-page -r -l times -d 'when the bytes of both sides were captured'
complete -c tcpclkit-page -x -l closed -a 'a b ab' -d 'these sides closed the connection'
complete -c tcpclkit-page -r -l tcpclkit -d 'the program that reads the recordings'

complete -c tcpclkit-probe -x -l listen -d 'let the node connect to ADDRESS'
complete -c tcpclkit-probe -n 'not __fish_contains_opt mine' -l mine -d 'the node is yours, whatever its address is'
complete -c tcpclkit-probe -x -l only -d 'try only these cases'
complete -c tcpclkit-probe -n 'not __fish_contains_opt list' -l list -d 'write the cases, and do nothing else'
complete -c tcpclkit-probe -n 'not __fish_contains_opt must' -l must -d 'write no should'
complete -c tcpclkit-probe -x -l send -d 'a command that makes the node send a bundle'
complete -c tcpclkit-probe -x -l destination -d 'where bundles go'
complete -c tcpclkit-probe -x -l node -d 'the node ID of the probe'
complete -c tcpclkit-probe -x -l keepalive -d 'its keepalive interval, in seconds'
complete -c tcpclkit-probe -x -l segment-mru -d 'its segment MRU'
complete -c tcpclkit-probe -x -l transfer-mru -d 'its transfer MRU'
complete -c tcpclkit-probe -x -l timeout -d 'how long to wait for an answer'
complete -c tcpclkit-probe -x -l patience -d 'how long to look whether the node serves again'
complete -c tcpclkit-probe -x -l wait -d 'how long to wait for the next connection'
complete -c tcpclkit-probe -x -l jobs -d 'how many cases to try at the same time'
complete -c tcpclkit-probe -x -l fuzz -d 'send N streams after `good`'
complete -c tcpclkit-probe -x -l seed -d 'which streams these are'
complete -c tcpclkit-probe -r -l play -d 'send the stream in FILE after `good`'
complete -c tcpclkit-probe -r -l junit -d 'write the results into FILE as JUnit does'
complete -c tcpclkit-probe -r -l tcpclkit -d 'the program that reads the recordings'
