#!/usr/bin/env bash
# Tries the program with real peers on loopback addresses: authoritative servers of tinydns and axfrdns, dig and dnsqr as clients, and
# Debian's dnscache beside it. It isn't part of the gate, and is skipped where a tool is missing.
#
#   trials/peers.sh PROGRAM
set -u
cd "$(dirname "$0")"
program=$(realpath "${1:?the program}")
source ./common.sh
needs tinydns tinydns-data axfrdns tcpserver dig dnsqr dnscache

failed=0
# is WHAT WANTED GOT
is() {
  if [ "$2" = "$3" ]; then echo "ok: $1"; else echo "FAILED: $1: wanted '$2', got '$3'"; failed=1; fi
}

authority root 127.53.0.1 <<'DATA'
.:127.53.0.1:a.root-servers
&test:127.53.0.2:a.ns.test
&dead.test:127.53.0.9:a.ns.dead.test
DATA
long=$(printf 'x%.0s' $(seq 200))
authority test 127.53.0.2 <<DATA
.test:127.53.0.2:a.ns.test
&dead.test:127.53.0.9:a.ns.dead.test
=www.test:192.0.2.1:300
+www.test:192.0.2.2:300
Cwww2.test:www.test:300
@test:192.0.2.5:mail.test:10:300
'long.test:$long:300
'long.test:a$long:300
'long.test:b$long:300
DATA
cache_folder ours 127.53.0.1
ours ours 127.53.0.53 127.53.0.54 1000000
cache_folder forwarder 127.53.0.53
ours forwarder 127.53.0.55 127.53.0.56 1000000 forward
cache_folder theirs 127.53.0.1
theirs theirs 127.53.0.57 127.53.0.58 1000000
await 127.53.0.53
await 127.53.0.55
await 127.53.0.57

ask() { dig +tries=1 +time=8 "$@" | sort; }
status() { dig +tries=1 +time=12 "$@" | sed -n 's/.*status: \([A-Z]*\).*/\1/p'; }
seen() { env DNSCACHEIP="$1" dnsqr "$2" "$3" 2>&1 | grep '^answer' | sed 's/ [0-9][0-9]* / /' | sort; }

is "an address, by way of a referral" "192.0.2.1 192.0.2.2" "$(ask +short @127.53.0.53 www.test A | xargs)"
is "the same from the cache" "192.0.2.1 192.0.2.2" "$(ask +short @127.53.0.53 www.test A | xargs)"
is "the same over TCP" "192.0.2.1 192.0.2.2" "$(ask +tcp +short @127.53.0.53 www.test A | xargs)"
is "an alias" "192.0.2.1 192.0.2.2 www.test." "$(ask +short @127.53.0.53 www2.test A | xargs)"
is "mail exchangers" "10 mail.test." "$(ask +short @127.53.0.53 test MX | xargs)"
is "a name that doesn't exist" NXDOMAIN "$(status @127.53.0.53 nowhere.test A)"
is "no record of a type" NOERROR "$(status @127.53.0.53 www.test MX)"
is "an answer of more than 512 bytes" 3 "$(ask +short @127.53.0.53 long.test TXT | wc -l)"
is "the same is cut short over UDP" 1 "$(dig +noedns +ignore +tries=1 +time=8 @127.53.0.53 long.test TXT | grep -c 'flags:.* tc')"
is "a dead server" SERVFAIL "$(status @127.53.0.53 www.dead.test A)"
is "localhost" 127.0.0.1 "$(ask +short @127.53.0.53 localhost A)"
is "a forwarder" "192.0.2.1 192.0.2.2" "$(ask +short @127.53.0.55 www.test A | xargs)"
is "a forwarder's long answer" 3 "$(ask +short @127.53.0.55 long.test TXT | wc -l)"
for question in "a www.test" "a www2.test" "mx test" "any www.test" "a nowhere.test" "a localhost" "a 192.0.2.77" "ptr 1.0.0.127.in-addr.arpa" "txt long.test"; do
  set -- $question
  is "as Debian's dnscache: $question" "$(seen 127.53.0.57 "$1" "$2")" "$(seen 127.53.0.53 "$1" "$2")"
done
is "requests without recursion wanted are ignored" "" "$(dig +norecurse +tries=1 +time=1 @127.53.0.53 www.test A | grep status)"
is "the log tells of them" 1 "$(grep -c '^starting' "$room/ours/log")"
exit $failed
