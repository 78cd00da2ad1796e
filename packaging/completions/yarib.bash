# Completion of yarib for bash: source this file, or put it into the directory of bash-completion as `yarib`.
_yarib() {
  local word=${COMP_WORDS[COMP_CWORD]} before=${COMP_WORDS[COMP_CWORD - 1]} options
  COMPREPLY=()
  if [ "$COMP_CWORD" -eq 1 ]; then
    mapfile -t COMPREPLY < <(compgen -W "run lookup table diff replay help --help --version" -- "$word")
    return
  fi
  case ${COMP_WORDS[1]}:$before in
    run:--limit | run:--batch | lookup:--limit | lookup:--address | lookup:--only | lookup:--without | table:--within | table:--covering | table:--exact | table:--feed | table:--only | table:--without | table:--limit | diff:--old-only | diff:--old-without | diff:--new-only | diff:--new-without | diff:--limit | replay:--levels) return ;;
  esac
  if [ "${COMP_WORDS[1]}:$before" = diff:--by ]; then
    mapfile -t COMPREPLY < <(compgen -W "hop route" -- "$word")
    return
  fi
  case ${COMP_WORDS[1]} in
    run) options="--limit --batch --help" ;;
    lookup) options="--all --only --without --names --json --csv --address --addresses --keep-invalid --limit --help" ;;
    table) options="--within --covering --exact --feed --only --without --best --count --total --names --json --csv --limit --help" ;;
    diff) options="--by --prefixes --count --old-only --old-without --new-only --new-without --names --json --csv --limit --help" ;;
    replay) options="--levels --help" ;;
    help) options="run lookup table diff replay" ;;
    *) return ;;
  esac
  if [[ ${COMP_WORDS[1]} = @(run|lookup|table|diff) && $word != -* ]]; then
    compopt -o filenames
    mapfile -t COMPREPLY < <(compgen -f -- "$word")
  else
    mapfile -t COMPREPLY < <(compgen -W "$options" -- "$word")
  fi
}
complete -F _yarib yarib ./yarib
