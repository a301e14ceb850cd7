#!/usr/bin/env bash
# What CORES costs: processor time an answer and answers a second of a service without CORES and with 1, in turn, four times each, and with 2 and 4; of
# names in the cache, and of names that must be fetched from one authoritative server. Where the time goes: in the service's own code, in the
# system, and how many threads are started a second. How much memory each takes, and how often the log of a service over four cores has its first
# query. The load is that of load.c, with 100 queries under way from 25 sockets, on processors of its own as far as there are any. It isn't part of
# the gate, and is skipped where a tool is missing.
#
#   trials/split.sh PROGRAM [SECONDS]
set -u
cd "$(dirname "$0")"
program=$(realpath "${1:?the program}")
seconds=${2:-4}
source ./common.sh
needs tinydns tinydns-data axfrdns tcpserver dig taskset gcc bc

gcc -O2 -pthread -o "$room/load" load.c || exit 1
processors=$(nproc)
wildcard 127.53.10.1 127.53.10.2
seq -w 1000 | sed 's/.*/c&.w.trial/' > "$room/cached"
seq -w 2000000 | sed 's/.*/f&.w.trial/' > "$room/fetched"
for one in "${started[@]}"; do taskset -pc "$((processors > 1))-$((processors - 1))" "$one" > "$room/pinned"; done

# field NAME: the field of that name of what the load says.
field() { sed -n "s/.*\b$1=\([^ ]*\).*/\1/p"; }
# middle FILE: the middle one of its numbers.
middle() { sort -n "$1" | awk '{ n[NR] = $1 } END { print (n[int((NR + 1) / 2)] + n[int(NR / 2) + 1]) / 2 }'; }

turn=0
# measure WHAT PROCESSORS [CORES]
measure() {
  turn=$((turn + 1))
  local folder="ours$turn" address="127.53.10.$((100 + turn))" first=$2 what line
  [ "$first" -lt "$processors" ] || first=0
  cache_folder "$folder" 127.53.10.1
  (cd "$room/$folder" && exec env -i PATH="$PATH" IP="$address" IPSEND="127.53.10.$((200 + turn))" CACHESIZE=100000000 ${3:+CORES="$3"} \
    taskset -c "0-$(($2 - 1))" "$program" < seed 2> log) &
  started+=($!)
  await "$address"
  ask() { taskset -c "$first-$((processors - 1))" "$room/load" ask "$address" "$room/$1" 25 4 "$2" 1 "${started[-1]}"; }
  ask cached 1 > "$room/warm"
  for what in cached fetched; do
    line=$(ask "$what" "$seconds")
    echo "$1, $what: $(field rate <<< "$line") a second, $(field lost <<< "$line") lost; $(field served <<< "$line") us of processor time an answer, $(field user <<< "$line") of them its own and $(field system <<< "$line") the system's; of a processor it had $(field busy <<< "$line"); $(field started <<< "$line") threads started a second"
    field rate <<< "$line" >> "$room/$what-rate${3:-}"
    field served <<< "$line" >> "$room/$what-served${3:-}"
  done
  echo "$1: $(sed -n 's/VmRSS: *//p' "/proc/${started[-1]}/status") of memory"
  kill "${started[-1]}" 2>/dev/null
  wait "${started[-1]}" 2>/dev/null
  unset 'started[-1]'
  [ -z "${3:-}" ] || echo "$1: the log begins $(grep -c '^starting' "$room/$folder/log") times, and has a first query $(grep -c '^query 1 ' "$room/$folder/log") times"
  rm -f "$room/$folder/log"
}
for _ in 1 2 3 4; do
  measure "without CORES" 1
  measure "CORES=1" 1 1
done
for what in cached fetched; do
  rates=$(bc -l <<< "$(middle "$room/$what-rate1") / $(middle "$room/$what-rate")")
  times=$(bc -l <<< "$(middle "$room/$what-served1") / $(middle "$room/$what-served")")
  good=FAILED
  [ "$(bc -l <<< "$times <= 1.03")" = 0 ] || good=ok
  printf '%s: CORES=1 takes %.3f of the processor time of a service without, and answers %.3f of the names a second (%s)\n' "$good" "$times" "$rates" "$what"
done
measure "CORES=2" 2 2
measure "CORES=4" 4 4
