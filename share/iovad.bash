# Completion of iovad's words for bash; bin/dev completion makes it.
_iovad() {
  local word=${COMP_WORDS[COMP_CWORD]} before=${COMP_WORDS[COMP_CWORD - 1]} words='' files='' at place=0
  COMPREPLY=()
  for ((at = 2; at < COMP_CWORD; at++)); do
    case ${COMP_WORDS[1]}:${COMP_WORDS[at]} in
      ask:--timeout | check:--did | check:--first | check:--last | check:--reserved-regions | control:--timeout | replay:--log | serve:--clients | serve:--control | serve:--depot | serve:--domain | serve:--granule | serve:--idle | serve:--last | serve:--log-level | serve:--name | serve:--peer | serve:--peer-wait | serve:--record | serve:--record-steps | serve:--reserve | serve:--reserved-regions | serve:--session-requests | serve:--sessions | serve:--sink | serve:--sink-timeout | serve:--socket | serve:--start | serve:--workers) at=$((at + 1)) ;;
      *:-?*) ;;
      *) place=$((place + 1)) ;;
    esac
  done
  [ $COMP_CWORD -gt 1 ] || place=first
  case $place:${COMP_WORDS[1]}:$before in
    first:*) words='replay serve control ask check help --help --version' ;;
    *:replay:--log | *:serve:--socket | *:serve:--peer | *:serve:--sink | *:serve:--record | *:serve:--reserved-regions | *:serve:--control | *:check:--reserved-regions) files=yes ;;
    *:serve:--workers | *:serve:--clients | *:serve:--domain | *:serve:--start | *:serve:--last | *:serve:--peer-wait | *:serve:--sessions | *:serve:--session-requests | *:serve:--idle | *:serve:--depot | *:serve:--record-steps | *:serve:--reserve | *:serve:--sink-timeout | *:serve:--name | *:serve:--granule | *:control:--timeout | *:ask:--timeout | *:check:--first | *:check:--last | *:check:--did) return ;;
    *:serve:--log-level) words='error warn info debug' ;;
    *:replay:*) words='--report --log --help' files=yes ;;
    *:serve:*) words='--socket --workers --clients --domain --start --last --peer --sink --peer-wait --sessions --session-requests --idle --depot --strict --record --record-steps --reserve --reserved-regions --sink-timeout --log-level --name --control --granule --help' ;;
    0:control:*) words='--timeout --top --help' files=yes ;;
    1:control:*) words='report sessions metrics info watch stop'; [[ $word != -* ]] || words='--timeout --top --help' ;;
    *:ask:*) words='--timeout --help' files=yes ;;
    *:check:*) words='--quiet --first --last --reserved-regions --ftrace --did --help' files=yes ;;
    *:help:*) words='replay serve control ask check' ;;
  esac
  mapfile -t COMPREPLY < <(
    [ -z "$words" ] || compgen -W "$words" -- "$word"
    [ -z "$files" ] || compgen -f -- "$word"
  )
}
complete -o filenames -F _iovad iovad
