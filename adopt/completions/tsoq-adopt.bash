# Completions of bash for tsoq-adopt.
_tsoq_adopt() {
  local word=${COMP_WORDS[COMP_CWORD]} before=${COMP_WORDS[COMP_CWORD-1]}
  case $before in
    --push) COMPREPLY=(); return ;;
    --pop) COMPREPLY=(); return ;;
    --init) COMPREPLY=(); return ;;
    --layout) COMPREPLY=(); return ;;
    --done) mapfile -t COMPREPLY < <(compgen -W "0 1" -- "$word"); return ;;
    --compiler) COMPREPLY=(); return ;;
    --cflags) COMPREPLY=(); return ;;
    --add-cflags) COMPREPLY=(); return ;;
    --capacity) COMPREPLY=(); return ;;
    --mode) mapfile -t COMPREPLY < <(compgen -W "strict weak" -- "$word"); return ;;
    --thread) COMPREPLY=(); return ;;
    --before) COMPREPLY=(); return ;;
    --bound) COMPREPLY=(); return ;;
    --bound-at) COMPREPLY=(); return ;;
    --try) COMPREPLY=(); return ;;
  esac
  if [[ $word == -* ]]; then
    mapfile -t COMPREPLY < <(compgen -W "--help --push --pop --init --layout --done --compiler --cflags --add-cflags --out --capacity --mode --thread --before --bound --bound-at --try --no-try --verify --survey --quiet" -- "$word")
  else
    mapfile -t COMPREPLY < <(compgen -f -- "$word")
  fi
}
complete -o filenames -F _tsoq_adopt tsoq-adopt
