#!/usr/bin/env bash
# How many descriptors and how much memory the program holds before and after 120,000 names were fetched for clients over UDP, and names of
# the cache were asked for over TCP. It isn't part of the gate, and is skipped where a tool is missing.
#
#   trials/descriptors.sh PROGRAM
set -u
cd "$(dirname "$0")"
program=$(realpath "${1:?the program}")
source ./common.sh
needs tinydns tinydns-data axfrdns tcpserver dig dnsperf

wildcard 127.53.2.1 127.53.2.2
cache_folder ours 127.53.2.1
ours ours 127.53.2.53 127.53.2.54 1000000
await 127.53.2.53
process=${started[-1]}
held() { echo "$(ls "/proc/$process/fd" | wc -l) descriptors, $(sed -n 's/VmRSS: *//p' "/proc/$process/status")"; }
held
for i in $(seq 120000); do echo "g$i.w.trial A"; done > "$room/names"
dnsperf -s 127.53.2.53 -d "$room/names" -n 1 -q 150 2>&1 | grep -E 'completed|lost'
held
dnsperf -s 127.53.2.53 -d "$room/names" -m tcp -c 15 -q 15 -l 3 2>&1 | grep -E 'completed|lost'
sleep 11
held
