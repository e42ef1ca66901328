#!/usr/bin/env bash
# Surveys a queue as an array of Slurm: each job takes every Nth client.
#
#   FILE=queue.tso DIR=/shared/survey BOUNDS='--threads 3 --calls 6' sbatch cluster/survey.sbatch
#
# FILE is a program text, DIR a folder that all nodes see, BOUNDS has the words of a survey with blanks between them, TSOQ names the
# program, tsoq if it is not set. sbatch hands the whole environment on. When the array is over,
# `tsoq survey FILE --collect DIR BOUNDS` decides all that the jobs have left.
#SBATCH --array=1-8
#SBATCH --cpus-per-task=1
set -euo pipefail
read -r -a bounds <<<"${BOUNDS:-}"
status=0
"${TSOQ:-tsoq}" survey "$FILE" --part "$SLURM_ARRAY_TASK_ID/$SLURM_ARRAY_TASK_COUNT" --out "$DIR" "${bounds[@]}" || status=$?
# A violation, or a client at its limit, is an answer.
[ $status = 1 ] || [ $status = 4 ] || exit $status
