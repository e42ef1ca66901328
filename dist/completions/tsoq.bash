# Completions of bash for tsoq and tsoq-check. Source this file, or copy it to /usr/share/bash-completion/completions/.

_tsoq() {
  local word=${COMP_WORDS[COMP_CWORD]} before=${COMP_WORDS[COMP_CWORD-1]} options= words=
  if [ $COMP_CWORD = 1 ]; then
    COMPREPLY=($(compgen -W 'verify check upgrade coverage replay survey fences parse explain help --help --version' -- "$word"))
    return
  fi
  case "${COMP_WORDS[1]} $before" in
    *\ --clients|*\ --html|*\ --trace|upgrade\ --out|verify\ --out)
      COMPREPLY=($(compgen -f -- "$word"))
      return
      ;;
    *\ --collect|survey\ --out)
      COMPREPLY=($(compgen -d -- "$word"))
      return
      ;;
    *\ --add|*\ --before|*\ --calls|*\ --client|*\ --consumers|*\ --part|*\ --producers|*\ --states|*\ --threads|*\ --to|*\ --workers)
      COMPREPLY=()
      return
      ;;
    *\ --form)
      COMPREPLY=($(compgen -W '1 2 3' -- "$word"))
      return
      ;;
    *\ --mode)
      COMPREPLY=($(compgen -W 'strict weak' -- "$word"))
      return
      ;;
  esac
  case ${COMP_WORDS[1]} in
    verify) options='--out --trace --form --workers --states --stats --progress --json --client --before --mode --verbose --help' ;;
    check) options='--workers --json --client --before --mode --verbose --help' ;;
    upgrade) options='--out --client --before --mode --verbose --help' ;;
    coverage) options='--workers --json --client --before --mode --source --verbose --help' ;;
    replay) options='--to --json --source --registers --buffers --brief --history --partial --html --client --before --mode --verbose --help' ;;
    survey) options='--collect --clients --threads --calls --producers --consumers --before --mode --out --part --list --all --coverage --progress --json --workers --form --states --verbose --help' ;;
    fences) options='--add --json --client --before --mode --survey --threads --calls --producers --consumers --workers --states --verbose --help' ;;
    parse) options='--print --client --before --mode --verbose --help' ;;
    explain) options='--help' words='E01 E02 E03 E04 E05 E06 E07 E08 E09 E10 E11 E12 E13 E14 K01 K02 K03 K04 K05 K06 K07 K08 K09 K10 K11 K12 T01 T02 T03' ;;
    help) words='verify check upgrade coverage replay survey fences parse explain' ;;
  esac
  case $word in
    -*) COMPREPLY=($(compgen -W "$options" -- "$word")) ;;
    *)
      if [ -n "$words" ]; then
        COMPREPLY=($(compgen -W "$words" -- "$word"))
      else
        COMPREPLY=($(compgen -f -- "$word"))
      fi
      ;;
  esac
}
complete -o filenames -F _tsoq tsoq

_tsoq_check() {
  local word=${COMP_WORDS[COMP_CWORD]} before=${COMP_WORDS[COMP_CWORD-1]} options= words=
  case $before in
    --clients)
      COMPREPLY=($(compgen -f -- "$word"))
      return
      ;;
    --collect)
      COMPREPLY=($(compgen -d -- "$word"))
      return
      ;;
    --before|--calls|--client|--consumers|--producers|--threads|--workers)
      COMPREPLY=()
      return
      ;;
    --mode)
      COMPREPLY=($(compgen -W 'strict weak' -- "$word"))
      return
      ;;
  esac
  options='--workers --json --client --before --mode --collect --clients --threads --calls --producers --consumers --help --version'
  case $word in
    -*) COMPREPLY=($(compgen -W "$options" -- "$word")) ;;
    *)
      if [ -n "$words" ]; then
        COMPREPLY=($(compgen -W "$words" -- "$word"))
      else
        COMPREPLY=($(compgen -f -- "$word"))
      fi
      ;;
  esac
}
complete -o filenames -F _tsoq_check tsoq-check
