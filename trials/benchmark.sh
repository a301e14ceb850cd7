#!/usr/bin/env bash
# Queries a second of the program, of Debian's dnscache and of unbound, each alone and one after another, by dnsperf: of names in the cache, and of
# names that must be fetched from one authoritative server. It isn't part of the gate, and is skipped where a tool is missing.
#
#   trials/benchmark.sh PROGRAM [SECONDS]
set -u
cd "$(dirname "$0")"
program=$(realpath "${1:?the program}")
seconds=${2:-10}
source ./common.sh
needs tinydns tinydns-data axfrdns tcpserver dig dnscache dnsperf unbound

wildcard 127.53.1.1 127.53.1.2
for i in $(seq 1000); do echo "c$i.w.trial A"; done > "$room/cached"
for i in $(seq 2000000); do echo "f$i.w.trial A"; done > "$room/fetched"

rate() { sed -n 's/.*Queries per second: *\([0-9.]*\).*/\1/p'; }
codes() { sed -n 's/.*Response codes: *//p'; }
lost() { sed -n 's/.*Queries lost: *\([0-9]*\).*/\1/p'; }
measure() {
  await "$2"
  dnsperf -s "$2" -d "$room/cached" -n 2 >/dev/null 2>&1
  dnsperf -s "$2" -d "$room/cached" -l "$seconds" -q 100 > "$room/out" 2>&1
  echo "$1: names in the cache: $(rate < "$room/out") a second, $(lost < "$room/out") lost, $(codes < "$room/out")"
  dnsperf -s "$2" -d "$room/fetched" -l "$seconds" -q 100 > "$room/out" 2>&1
  echo "$1: names to be fetched: $(rate < "$room/out") a second, $(lost < "$room/out") lost, $(codes < "$room/out")"
  kill "${started[-1]}" 2>/dev/null
}
cache_folder ours 127.53.1.1
ours ours 127.53.1.53 127.53.1.54 100000000
measure "this dnscache" 127.53.1.53
cache_folder theirs 127.53.1.1
theirs theirs 127.53.1.57 127.53.1.58 100000000
measure "Debian's dnscache" 127.53.1.57
mkdir -p "$room/unbound"
cat > "$room/unbound/conf" <<CONF
server:
  interface: 127.53.1.59
  outgoing-interface: 127.53.1.60
  do-daemonize: no
  do-not-query-localhost: no
  access-control: 127.0.0.0/8 allow
  chroot: ""
  username: ""
  pidfile: ""
  use-syslog: no
  logfile: "$room/unbound/log"
  log-queries: yes
  root-hints: "$room/unbound/hints"
  module-config: "iterator"
  num-threads: 1
  msg-cache-size: 100m
  rrset-cache-size: 100m
CONF
printf '. 3600000 NS a.root-servers.\na.root-servers. 3600000 A 127.53.1.1\n' > "$room/unbound/hints"
unbound -c "$room/unbound/conf" &
started+=($!)
measure "unbound" 127.53.1.59
