# Completion of iovad's words for fish; bin/dev completion makes it.
function __iovad_is -d 'The command, and which of its places it is'
    set -l words (commandline -opc)
    test (count $words) -ge 2; and test $words[2] = $argv[1]; or return 1
    test (count $argv) -lt 2; and return 0
    set -l place 0
    set -l is_value 0
    set -e words[1..2]
    for word in $words
        if test $is_value = 1
            set is_value 0
        else if string match -qr '^--(clients|control|depot|did|domain|first|granule|idle|last|log|log-level|name|peer|peer-wait|record|record-steps|reserve|reserved-regions|session-requests|sessions|sink|sink-timeout|socket|start|timeout|workers)$' -- $word
            set is_value 1
        else if not string match -q -- '-?*' $word
            set place (math $place + 1)
        end
    end
    test $place -eq $argv[2]
end
complete -c iovad -f
complete -c iovad -s h -l help -d 'prints help'
complete -c iovad -n __fish_use_subcommand -s V -l version -d 'prints the version'
complete -c iovad -n __fish_use_subcommand -a replay -d 'answers each step of a trace'
complete -c iovad -n __fish_use_subcommand -a serve -d 'serves sessions on a Unix socket'
complete -c iovad -n __fish_use_subcommand -a control -d 'asks a daemon for its report or metrics, watches it, or stops it'
complete -c iovad -n __fish_use_subcommand -a ask -d 'sends requests to a socket and prints the answers'
complete -c iovad -n __fish_use_subcommand -a check -d 'checks a log of mappings and flushes, or a kernel\'s trace'
complete -c iovad -n __fish_use_subcommand -a help -d 'prints help'
complete -c iovad -n '__iovad_is replay' -l report -d 'the domain\'s report follows the replies'
complete -c iovad -n '__iovad_is replay' -l log -r -F -d 'the file that the log is written to'
complete -c iovad -n '__iovad_is replay' -F
complete -c iovad -n '__iovad_is serve' -l socket -r -F -d 'the socket\'s path'
complete -c iovad -n '__iovad_is serve' -l workers -x -d 'how many workers the domain has, 1 to 16'
complete -c iovad -n '__iovad_is serve' -l clients -x -d 'how many clients are served at a time, 1 to 1024'
complete -c iovad -n '__iovad_is serve' -l domain -x -d 'the number of the domain, 0 to 7'
complete -c iovad -n '__iovad_is serve' -l start -x -d 'the first frame that may be given'
complete -c iovad -n '__iovad_is serve' -l last -x -d 'the last frame that may be given'
complete -c iovad -n '__iovad_is serve' -l peer -r -F -d 'the socket of a peer that answers'
complete -c iovad -n '__iovad_is serve' -l sink -r -F -d 'a file for records, which no device answers'
complete -c iovad -n '__iovad_is serve' -l peer-wait -x -d 'the seconds that the peer is waited for at the start'
complete -c iovad -n '__iovad_is serve' -l sessions -x -d 'how many sessions are served'
complete -c iovad -n '__iovad_is serve' -l session-requests -x -d 'the most requests of a session'
complete -c iovad -n '__iovad_is serve' -l idle -x -d 'the seconds after which a silent session ends'
complete -c iovad -n '__iovad_is serve' -l depot -x -d 'the second profile, with so many magazines in the depot'
complete -c iovad -n '__iovad_is serve' -l strict -d 'flushes each range at once that is freed'
complete -c iovad -n '__iovad_is serve' -l record -r -F -d 'the file that the first steps are written to'
complete -c iovad -n '__iovad_is serve' -l record-steps -x -d 'how many steps are recorded'
complete -c iovad -n '__iovad_is serve' -l reserve -x -d 'FIRST-LAST: frames that are given to nobody'
complete -c iovad -n '__iovad_is serve' -l reserved-regions -r -F -d 'the reserved_regions of a group'
complete -c iovad -n '__iovad_is serve' -l sink-timeout -x -d 'the seconds that a peer has to answer'
complete -c iovad -n '__iovad_is serve' -l log-level -x -a 'error warn info debug' -d 'which notices are told'
complete -c iovad -n '__iovad_is serve' -l name -x -d 'the daemon\'s name in notices and metrics'
complete -c iovad -n '__iovad_is serve' -l control -r -F -d 'the path of the control socket'
complete -c iovad -n '__iovad_is serve' -l granule -x -d 'the bytes of a page frame, which metrics and info tell'
complete -c iovad -n '__iovad_is control' -l timeout -x -d 'the seconds that a connection and the answer are waited for'
complete -c iovad -n '__iovad_is control' -l top -d 'with watch: a screen in place of lines'
complete -c iovad -n '__iovad_is control 0' -F
complete -c iovad -n '__iovad_is control 1' -a 'report sessions metrics info watch stop'
complete -c iovad -n '__iovad_is ask' -l timeout -x -d 'the seconds that a connection and each answer are waited for'
complete -c iovad -n '__iovad_is ask' -F
complete -c iovad -n '__iovad_is check' -l quiet -d 'prints the counts alone'
complete -c iovad -n '__iovad_is check' -l first -x -d 'the first frame that may be mapped'
complete -c iovad -n '__iovad_is check' -l last -x -d 'the last frame that may be mapped'
complete -c iovad -n '__iovad_is check' -l reserved-regions -r -F -d 'the reserved_regions of a group'
complete -c iovad -n '__iovad_is check' -l ftrace -d 'reads a kernel\'s trace'
complete -c iovad -n '__iovad_is check' -l did -x -d 'with --ftrace: the IOMMU\'s domain whose flushes count'
complete -c iovad -n '__iovad_is check' -F
complete -c iovad -n '__iovad_is help' -a 'replay serve control ask check'
