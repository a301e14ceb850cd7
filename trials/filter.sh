#!/usr/bin/env bash
# Tries dnsfilter on a log of many lines with a real cache and a real authoritative server on loopback addresses, and measures it beside
# Debian's own dnsfilter on the same log, cache and number of hosts asked for at once. It isn't part of the gate, and is skipped where a
# tool is missing.
#
#   trials/filter.sh PROGRAM FILTER [LINES]
#
# PROGRAM is the built dnscache, FILTER the built dnsfilter. Debian's is that of the PATH. LINES is 1000000 where it isn't said.
set -u
cd "$(dirname "$0")"
program=$(realpath "${1:?the program}")
filter=$(realpath "${2:?the filter}")
lines=${3:-1000000}
source ./common.sh
needs tinydns tinydns-data axfrdns tcpserver dig dnsfilter

failed=0
# is WHAT WANTED GOT
is() {
  if [ "$2" = "$3" ]; then echo "ok: $1"; else echo "FAILED: $1: wanted '$2', got '$3'"; failed=1; fi
}

authority root 127.53.2.1 <<'DATA'
.:127.53.2.1:a.root-servers
&2.0.192.in-addr.arpa:127.53.2.2:a.ns.test
&test:127.53.2.2:a.ns.test
DATA
# Of 256 addresses, 224 have a name.
{
  echo ".test:127.53.2.2:a.ns.test"
  echo ".2.0.192.in-addr.arpa:127.53.2.2:a.ns.test"
  for i in $(seq 0 223); do echo "=h$i.test:192.0.2.$i:86400"; done
} | authority test 127.53.2.2
cache_folder ours 127.53.2.1
ours ours 127.53.2.53 127.53.2.54 1000000
await 127.53.2.53

# A log: one line in sixteen begins with no address, one is empty, and the others begin with one of the addresses.
log() {
  awk -v n="$1" 'BEGIN {
    for (i = 1; i <= n; i++) {
      if (i % 16 == 0) printf "%s\n", (i % 32) ? "no address at line " i : ""
      else printf "192.0.2.%d - - [%d] \"GET /%d HTTP/1.0\" 200 %d\n", (i * 7919) % 256, i, i * 31, i % 5000
    }
  }'
}
# What is wanted of it.
wanted() {
  log "$1" | awk '/^192/ { split($1, a, "."); if (a[4] < 224) { $1 = $1 "=h" a[4] ".test" } } { print }'
}
log "$lines" > "$room/log"
wanted "$lines" > "$room/wanted"

mine() { env -i DNSCACHEIP=127.53.2.53 "$filter" "$@"; }
theirs_say() { env DNSCACHEIP=127.53.2.53 dnsfilter "$@"; }

# The cache knows all names before anything is measured.
head -n 5000 "$room/log" | mine > /dev/null

# timed NAME COMMAND..: runs it over the log, and leaves its seconds and its memory in files.
timed() { /usr/bin/time -o "$room/$1.time" -f '%e %M' "${@:2}" < "$room/log" > "$room/$1.out"; }
for c in 1 10 16; do
  timed mine env -i DNSCACHEIP=127.53.2.53 "$filter" -c "$c"
  is "status of $lines lines with -c $c" 0 "$?"
  cmp -s "$room/wanted" "$room/mine.out" && echo "ok: $lines lines in order, none lost, with -c $c" || { echo "FAILED: other lines with -c $c"; failed=1; }
  timed theirs env DNSCACHEIP=127.53.2.53 dnsfilter -c "$c"
  cmp -s "$room/wanted" "$room/theirs.out" || echo "Debian's writes other lines with -c $c"
  read -r ours_seconds ours_memory < "$room/mine.time"
  read -r their_seconds their_memory < "$room/theirs.time"
  awk -v n="$lines" -v c="$c" -v a="$ours_seconds" -v b="$their_seconds" -v m="$ours_memory" -v k="$their_memory" \
    'BEGIN { printf "-c %d: %.0f lines a second (%s KB), Debian'"'"'s %.0f (%s KB), ratio of the times %.2f\n", c, n / a, m, n / b, k, a / b }'
done

# Memory doesn't grow with the log.
head -n 10000 "$room/log" > "$room/short"
small=$(/usr/bin/time -f %M env -i DNSCACHEIP=127.53.2.53 "$filter" -c 16 < "$room/short" 2>&1 >/dev/null | tail -n 1)
echo "memory: $small KB for 10000 lines, $ours_memory KB for $lines"
[ "$ours_memory" -le $((small + 512)) ] && echo "ok: memory is steady" || { echo "FAILED: memory grows"; failed=1; }

# A pipe that is closed early.
is "a pipe closed early" "$(head -n 3 "$room/wanted")" "$(mine < "$room/log" 2>/dev/null | head -n 3)"
(mine < "$room/log" 2> "$room/said"; echo $? > "$room/status") | head -n 1 > /dev/null
echo "a pipe closed early: status $(cat "$room/status"), '$(cat "$room/said")'"

# An input without a line end, one without lines, and empty lines.
is "no line end" "$(printf '192.0.2.1=h1.test a\nb')" "$(printf '192.0.2.1 a\nb' | mine)"
is "bytes of a last line without its end" 4 "$(printf 'a\nb' | mine | wc -c)"
is "no lines" 0 "$(mine < /dev/null | wc -c)"
is "empty lines" 3 "$(printf '\n\n\n' | mine | wc -c)"

# A line of 4097 bytes behind a thousand good ones.
{ head -n 1000 "$room/log"; head -c 4097 /dev/zero | tr '\0' x; echo; echo behind; } > "$room/long"
mine < "$room/long" > "$room/long.out" 2> "$room/said"
is "status of a long line" 111 "$?"
is "what is said of it" "dnsfilter: fatal: line too long 1001" "$(cat "$room/said")"
cmp -s -n "$(stat -c %s "$room/long.out")" "$room/wanted" "$room/long.out" && echo "ok: what was written before it is a front of what is wanted" || { echo "FAILED: other lines before the long one"; failed=1; }
{ head -c 4096 /dev/zero | tr '\0' x; echo; } | mine | wc -c | { read -r n; is "bytes of a line of 4096" 4097 "$n"; }

# Words.
for words in "-c 0" "-c 17" "-c" "-c 1 2" "a" "-c 01" "-d 1"; do
  mine $words < /dev/null > /dev/null 2> "$room/said"
  is "exit status of dnsfilter $words" 100 "$?"
done
is "what is said of bad words" "dnsfilter: fatal: bad arguments" "$(cat "$room/said")"

# No server: the lines come out as they are.
is "no server" "192.0.2.1 a" "$(echo "192.0.2.1 a" | env -i DNSCACHEIP=127.53.2.99 "$filter")"

# An input that can't be read.
mine < / > /dev/null 2> "$room/said"
is "a folder as input" "111 dnsfilter: fatal: unable to read input" "$? $(cat "$room/said")"
exit $failed
