#!/usr/bin/env bash
# Runs a program on every plan, with the plan on its standard input, and compares what it prints
# with NAME.out.
#
#   plans/compare.sh PROGRAM [WORD ...]
set -euo pipefail
[[ $# -gt 0 ]] || { echo "usage: plans/compare.sh PROGRAM [WORD ...]" >&2; exit 2; }

folder=$(dirname "$0")
count=0
different=0
for plan in "$folder"/*.plan; do
  count=$((count + 1))
  if ! diff "${plan%.plan}.out" <("$@" <"$plan"); then
    echo "plans: $plan: what was printed (>) isn't ${plan%.plan}.out (<)" >&2
    different=$((different + 1))
  fi
done
echo "plans: $((count - different)) of $count texts the same"
[[ $different -eq 0 ]]
