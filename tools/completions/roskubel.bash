# bash completion for roskubel(8): its words and forms, their options, and image files.
_roskubel() {
  local word=${COMP_WORDS[COMP_CWORD]} options=
  if [ "$COMP_CWORD" -eq 1 ]; then
    mapfile -t COMPREPLY < <(compgen -W 'check create examine export grow help import layout new plan replace resume resync serve share status trial --engine --help --version' -- "$word")
    return
  fi
  case ${COMP_WORDS[1]} in
    plan) options='--add --extent --replace --svg' ;;
    new) options='--extent --yes' ;;
    check) options='--json' ;;
    replace) options='--accept-stale --yes' ;;
    grow) options='--yes' ;;
    resync | resume | share) options='--accept-stale --degraded' ;;
    serve | import | export | status | trial) options='--accept-stale --degraded --yes' ;;
    create) options='--yes' ;;
  esac
  if [[ $word == -* ]]; then
    mapfile -t COMPREPLY < <(compgen -W "$options" -- "$word")
    return
  fi
  case ${COMP_WORDS[1]} in
    layout) ;;
    help) mapfile -t COMPREPLY < <(compgen -W 'check create examine export grow import layout new plan replace resume resync serve share status trial' -- "$word") ;;
    create | trial) [ "$COMP_CWORD" -eq 2 ] || mapfile -t COMPREPLY < <(compgen -f -- "$word") ;;
    *) mapfile -t COMPREPLY < <(compgen -f -- "$word") ;;
  esac
}
complete -o filenames -F _roskubel roskubel ./roskubel
