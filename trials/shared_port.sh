#!/usr/bin/env bash
# How many names in the cache 1 to 4 services on one address and port answer a second, beside unbound with as many threads, and beside a bare echo of
# packets, which shows what the machine gives. 64 sockets ask, each with four queries under way for each service, by the load of load.c, which costs
# less than a service. The services stand on the first processors, one each, and the load on those that are left; where none is left it shares
# theirs, and then what a processor for each service would give is reckoned from the processor time of an answer. Each figure is the middle one of
# three. It isn't part of the gate, and is skipped where a tool is missing.
#
#   trials/shared_port.sh PROGRAM [SECONDS]
set -u
cd "$(dirname "$0")"
program=$(realpath "${1:?the program}")
seconds=${2:-5}
source ./common.sh
needs tinydns tinydns-data axfrdns tcpserver dig unbound taskset gcc bc

gcc -O2 -pthread -o "$room/load" load.c || exit 1
wildcard 127.53.9.1 127.53.9.2
seq -w 1000 | sed 's/.*/c&.w.trial/' > "$room/names"
processors=$(nproc)
declare -A one

# field NAME: the field of that name of what the load says.
field() { sed -n "s/.*\b$1=\([^ ]*\).*/\1/p"; }
# measure WHAT ADDRESS COUNT PID..
measure() {
  local what=$1 address=$2 count=$3 first=$3 threads=2 line rate lost times
  shift 3
  [ "$first" -lt "$processors" ] || first=0
  [ "$((processors - first))" -gt 1 ] || threads=1
  ask() { taskset -c "$first-$((processors - 1))" "$room/load" ask "$address" "$room/names" 64 $((4 * count)) "$1" "$threads" "${@:2}"; }
  ask 1 > "$room/warm"
  for _ in 1 2 3; do ask "$seconds" "$@"; done > "$room/out"
  line=$(sort -t= -k2n "$room/out" | sed -n 2p)
  rate=$(field rate <<< "$line")
  lost=$(field lost < "$room/out" | paste -sd+ | bc)
  [ "$count" -gt 1 ] || one[$what]=$rate
  times=$(bc -l <<< "$rate / ${one[$what]}")
  printf '%s, %s: %s a second (%s), %.2f times one; %s us of processor time an answer, and %s of the load; of a processor each had %s; %s lost, %s refused\n' \
    "$what" "$count" "$rate" "$(field rate < "$room/out" | paste -sd' ')" "$times" "$(field served <<< "$line")" "$(field load <<< "$line")" \
    "$(field busy <<< "$line")" "$lost" "$(field refused < "$room/out" | paste -sd+ | bc)"
  [ "$count" -lt "$processors" ] || printf '  with a processor for each: %.0f a second, %.2f times one, reckoned\n' \
    "$(bc -l <<< "$count * 1000000 / $(field served <<< "$line")")" "$(bc -l <<< "$count * 1000000 / $(field served <<< "$line") / ${one[$what]}")"
  case "$what $count" in
    "this dnscache 2") aimed "$times" 1.8 ;;
    "this dnscache 4") aimed "$times" 3 ;;
  esac
}
# aimed TIMES LEAST
aimed() {
  if [ "$(bc -l <<< "$1 >= $2")" = 1 ]; then echo "ok: $2 times one is aimed at"; else echo "FAILED: $2 times one is aimed at"; fi
}
# stop COUNT: the last so many that were started.
stop() {
  for _ in $(seq "$1"); do
    kill "${started[-1]}" 2>/dev/null
    wait "${started[-1]}" 2>/dev/null
    unset 'started[-1]'
  done
}

echoes() {
  for i in $(seq "$1"); do
    taskset -c "$(((i - 1) % processors))" "$room/load" echo "127.53.9.9$1" &
    started+=($!)
  done
  sleep 0.5
  measure "an echo" "127.53.9.9$1" "$1" "${started[@]: -$1}"
  stop "$1"
}
services() {
  for i in $(seq "$1"); do
    cache_folder "ours$1-$i" 127.53.9.1
    (cd "$room/ours$1-$i" && exec env -i PATH="$PATH" IP="127.53.9.5$1" IPSEND="127.53.9.$((60 + i))" CACHESIZE=100000000 SHAREPORT=1 \
      taskset -c "$(((i - 1) % processors))" "$program" < seed 2> log) &
    started+=($!)
  done
  await "127.53.9.5$1"
  measure "this dnscache" "127.53.9.5$1" "$1" "${started[@]: -$1}"
  stop "$1"
  for i in $(seq "$1"); do
    echo "  log $i: $(grep -c '^query ' "$room/ours$1-$i/log") queries, $(grep -c '^tx ' "$room/ours$1-$i/log") asked of servers"
  done
  rm -f "$room"/ours*/log
}
threads() {
  mkdir -p "$room/unbound"
  cat > "$room/unbound/conf" <<CONF
server:
  interface: 127.53.9.7$1
  outgoing-interface: 127.53.9.80
  do-daemonize: no
  do-not-query-localhost: no
  access-control: 127.0.0.0/8 allow
  chroot: ""
  username: ""
  pidfile: ""
  use-syslog: no
  logfile: "$room/unbound/log"
  log-queries: yes
  root-hints: "$room/unbound/hints"
  module-config: "iterator"
  num-threads: $1
  so-reuseport: yes
  msg-cache-size: 100m
  rrset-cache-size: 100m
CONF
  printf '. 3600000 NS a.root-servers.\na.root-servers. 3600000 A 127.53.9.1\n' > "$room/unbound/hints"
  taskset -c "0-$(($1 <= processors ? $1 - 1 : processors - 1))" unbound -c "$room/unbound/conf" &
  started+=($!)
  await "127.53.9.7$1"
  measure "unbound with threads" "127.53.9.7$1" "$1" "${started[-1]}"
  stop 1
  rm -f "$room/unbound/log"
}
for count in 1 2 3 4; do
  echoes "$count"
  services "$count"
  threads "$count"
done
