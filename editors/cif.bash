# Completion of `cif` in bash.
_cif() {
  local current=${COMP_WORDS[COMP_CWORD]} before=${COMP_WORDS[COMP_CWORD - 1]} command='' place=0 at word
  COMPREPLY=()
  for ((at = 1; at < COMP_CWORD; at++)); do
    word=${COMP_WORDS[at]}
    case $word in
      -o) at=$((at + 1)) ;;
      -*) ;;
      *) if [ -z "$command" ]; then command=$word; else place=$((place + 1)); fi ;;
    esac
  done
  case $before in
    -o) mapfile -t COMPREPLY < <(compgen -f -- "$current") && return ;;
    --unc | --con | --first) return ;;
    --plcopen) _cif_files st && return ;;
    --test) mapfile -t COMPREPLY < <(compgen -W 'all proved' -- "$current") && return ;;
  esac
  if [ -z "$command" ]; then
    _cif_words check generate replay batch simulate why explain legend wave draw wrap -o --places --proved --prove --test --status --version --help -h
    return
  fi
  case $command:$current in
    generate:-*) _cif_words --unc --con ;;
    simulate:-*) _cif_words --first ;;
    legend:-*) _cif_words --st --json ;;
    wave:-*) _cif_words --svg ;;
    wrap:-*) _cif_words --codesys --twincat --plcopen ;;
    *)
      case $command:$place in
        check:0 | generate:0 | simulate:0 | why:0 | legend:0 | wave:0 | draw:0 | wrap:0) _cif_files cif ;;
        simulate:1 | why:1) _cif_files txt ;;
        replay:0 | batch:0 | legend:1) _cif_files st ;;
        replay:1 | batch:1 | wave:1 | wave:2) _cif_files csv ;;
      esac
      ;;
  esac
}

_cif_words() {
  mapfile -t COMPREPLY < <(compgen -W "$*" -- "$current")
}

# The files with an ending, and the folders.
_cif_files() {
  compopt -o filenames 2>/dev/null
  mapfile -t COMPREPLY < <(
    compgen -f -X "!*.$1" -- "$current"
    compgen -d -- "$current"
  )
}

complete -F _cif cif ./cif
