#!/usr/bin/env bash
# All trials of the service, one after another, and which of them fell short. They aren't part of the gate; each is skipped where a tool is missing.
# What each prints goes to a file of its name in the folder that is told first.
#
#   trials/all.sh PROGRAM [TRIAL ..]
#
# It ends with 1 where a trial fell short.
set -u
cd "$(dirname "$0")"
program=$(realpath "${1:?the program}")
shift
trials=("$@")
[ $# -gt 0 ] || trials=(hurried.py faults.py exhausted.py half_closed.py kept.py refused_memory.py record.sh speed.py shared_port.sh split.sh image.sh)
kept=$(mktemp -d /tmp/dnscache-trials.XXXXXX)
echo "what is printed goes to $kept"
fell_short=()
for trial in "${trials[@]}"; do
  case "$trial" in
    *.py) python3 "./$trial" "$program" ;;
    *) "./$trial" "$program" ;;
  esac > "$kept/$trial" 2>&1
  status=$?
  if [ "$status" != 0 ] || grep -qE '^(FAILED|FELL SHORT)' "$kept/$trial"; then
    fell_short+=("$trial")
    echo "$trial: fell short, status $status"
    grep -E '^(FAILED|FELL SHORT)' "$kept/$trial"
  else
    echo "$trial: $(tail -1 "$kept/$trial")"
  fi
done
[ ${#fell_short[@]} = 0 ] || { echo "fell short: ${fell_short[*]}"; exit 1; }
