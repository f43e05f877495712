# Completion of xrf for bash.
_xrf_words=(
  replay
  run
  drive
  draw
  explain
  check
  follow
  diff
  shrink
  json
  coverage
  build
  help
  version
  --help
  --version
  --program
)
_xrf() {
  local word=${COMP_WORDS[COMP_CWORD]} verb=${COMP_WORDS[1]-}
  COMPREPLY=()
  if [ "$COMP_CWORD" -eq 1 ]; then
    mapfile -t COMPREPLY < <(compgen -W "${_xrf_words[*]}" -- "$word")
    return
  fi
  case $verb:$word in
    help:*) mapfile -t COMPREPLY < <(compgen -W "${_xrf_words[*]}" -- "$word") ;;
    replay:-* | run:-* | drive:-* | build:-*) mapfile -t COMPREPLY < <(compgen -W "--help" -- "$word") ;;
    draw:-*) mapfile -t COMPREPLY < <(compgen -W "--text --svg --acts --width --output --help" -- "$word") ;;
    explain:-*) mapfile -t COMPREPLY < <(compgen -W "--acts --help" -- "$word") ;;
    check:-*) mapfile -t COMPREPLY < <(compgen -W "--accept --strict --junit --program --jobs --timeout --quiet --help" -- "$word") ;;
    follow:-*) mapfile -t COMPREPLY < <(compgen -W "--help" -- "$word") ;;
    diff:-*) mapfile -t COMPREPLY < <(compgen -W "--help" -- "$word") ;;
    shrink:-*) mapfile -t COMPREPLY < <(compgen -W "--keep --help" -- "$word") ;;
    json:-*) mapfile -t COMPREPLY < <(compgen -W "--lines --back --help" -- "$word") ;;
    coverage:-*) mapfile -t COMPREPLY < <(compgen -W "--missing --json --xml --html --fail-under --help" -- "$word") ;;
    replay:* | run:* | draw:* | explain:* | follow:* | diff:* | shrink:* | json:* | check:* | coverage:*) mapfile -t COMPREPLY < <(compgen -f -- "$word") ;;
  esac
}
complete -o filenames -F _xrf xrf ./xrf
