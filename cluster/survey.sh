#!/usr/bin/env bash
# Surveys a queue by GNU parallel, one client a job, and then decides all that the jobs have left, which trusts none of them.
#
#   cluster/survey.sh FILE DIR [WORDS..]
#
# FILE is a program text, DIR the folder for texts, certificates and traces. WORDS are those of a survey: --threads, --calls, --before,
# --producers, --consumers and --mode, and --states for each search. TSOQ names the program, tsoq if it is not set; options of parallel, as
# --jobs or --sshlogin, stand in PARALLEL. The last line and the status are those of `tsoq survey FILE --collect DIR`.
set -euo pipefail
if [ $# -lt 2 ]; then
  sed -n '2,9s/^# \{0,1\}//p' "${BASH_SOURCE[0]}" >&2
  exit 64
fi
export TSOQ=${TSOQ:-tsoq} file=$1 dir=$2 mode='' states=''
shift 2
case $file in -*) file=./$file ;; esac
case $dir in -*) dir=./$dir ;; esac
bounds=()
while [ $# -gt 0 ]; do
  case $1 in
  --mode) mode=${2:-} && bounds+=("$1" "$mode") && shift 2 ;;
  --states) states=${2:-} && shift 2 ;;
  *) bounds+=("$1") && shift ;;
  esac
done

# Searches the client of a line. One with a violation, or at its limit, is no reason to end.
one() {
  local status=0
  "$TSOQ" survey "$file" --clients <(printf '%s\n' "$1") --out "$dir" ${mode:+--mode "$mode"} ${states:+--states "$states"} || status=$?
  [ $status = 1 ] || [ $status = 4 ] || return $status
}
export -f one

mkdir -p -- "$dir"
list=$("$TSOQ" survey "$file" --list "${bounds[@]}")
SHELL=$BASH parallel --will-cite --env one --env TSOQ --env file --env dir --env mode --env states one <<<"$list"
exec "$TSOQ" survey "$file" --collect "$dir" "${bounds[@]}"
