#compdef iovad
# Completion of iovad's words for zsh; bin/dev completion makes it.
_iovad() {
  local context state state_descr line
  typeset -A opt_args
  local -a commands=(
    'replay:answers each step of a trace'
    'serve:serves sessions on a Unix socket'
    'control:asks a daemon for its report or metrics, watches it, or stops it'
    'ask:sends requests to a socket and prints the answers'
    'check:checks a log of mappings and flushes, or a kernel'\''s trace'
    'help:prints help'
  )
  _arguments -C '(- *)'{-h,--help}'[prints help]' '(- *)'{-V,--version}'[prints the version]' \
    '1:command:->command' '*::word:->word'
  case $state in
    command) _describe command commands ;;
    word)
      case $words[1] in
        replay)
          _arguments '(- *)'{-h,--help}'[prints help]' \
            '--report[the domain'\''s report follows the replies]' \
            '--log[the file that the log is written to]:log:_files' \
            '1:word:_files'
          ;;
        serve)
          _arguments '(- *)'{-h,--help}'[prints help]' \
            '--socket[the socket'\''s path]:socket:_files' \
            '--workers[how many workers the domain has, 1 to 16]:workers: ' \
            '--clients[how many clients are served at a time, 1 to 1024]:clients: ' \
            '--domain[the number of the domain, 0 to 7]:domain: ' \
            '--start[the first frame that may be given]:start: ' \
            '--last[the last frame that may be given]:last: ' \
            '--peer[the socket of a peer that answers]:peer:_files' \
            '--sink[a file for records, which no device answers]:sink:_files' \
            '--peer-wait[the seconds that the peer is waited for at the start]:peer-wait: ' \
            '--sessions[how many sessions are served]:sessions: ' \
            '--session-requests[the most requests of a session]:session-requests: ' \
            '--idle[the seconds after which a silent session ends]:idle: ' \
            '--depot[the second profile, with so many magazines in the depot]:depot: ' \
            '--strict[flushes each range at once that is freed]' \
            '--record[the file that the first steps are written to]:record:_files' \
            '--record-steps[how many steps are recorded]:record-steps: ' \
            '*--reserve[FIRST-LAST\: frames that are given to nobody]:reserve: ' \
            '--reserved-regions[the reserved_regions of a group]:reserved-regions:_files' \
            '--sink-timeout[the seconds that a peer has to answer]:sink-timeout: ' \
            '--log-level[which notices are told]:log-level:(error warn info debug)' \
            '--name[the daemon'\''s name in notices and metrics]:name: ' \
            '--control[the path of the control socket]:control:_files' \
            '--granule[the bytes of a page frame, which metrics and info tell]:granule: '
          ;;
        control)
          _arguments '(- *)'{-h,--help}'[prints help]' \
            '--timeout[the seconds that a connection and the answer are waited for]:timeout: ' \
            '--top[with watch\: a screen in place of lines]' \
            '1:word:_files' \
            '2:word:(report sessions metrics info watch stop)'
          ;;
        ask)
          _arguments '(- *)'{-h,--help}'[prints help]' \
            '--timeout[the seconds that a connection and each answer are waited for]:timeout: ' \
            '1:word:_files'
          ;;
        check)
          _arguments '(- *)'{-h,--help}'[prints help]' \
            '--quiet[prints the counts alone]' \
            '--first[the first frame that may be mapped]:first: ' \
            '--last[the last frame that may be mapped]:last: ' \
            '--reserved-regions[the reserved_regions of a group]:reserved-regions:_files' \
            '--ftrace[reads a kernel'\''s trace]' \
            '--did[with --ftrace\: the IOMMU'\''s domain whose flushes count]:did: ' \
            '1:word:_files'
          ;;
        help)
          _arguments '(- *)'{-h,--help}'[prints help]' \
            '1:word:(replay serve control ask check)'
          ;;
      esac
      ;;
  esac
}
_iovad "$@"
