#!/usr/bin/env bash
# Tries the lookup tools with a real cache and a real authoritative server on loopback addresses, beside Debian's own tools of the same
# names, and measures one of them. It isn't part of the gate, and is skipped where a tool is missing.
#
#   trials/tools.sh PROGRAM TOOLS
#
# PROGRAM is the built dnscache, TOOLS a folder with the built dnsip, dnsname, dnstxt, dnsmx and dnsqr. Debian's tools are those of the PATH.
set -u
cd "$(dirname "$0")"
program=$(realpath "${1:?the program}")
tools=$(realpath "${2:?the folder of the tools}")
source ./common.sh
needs tinydns tinydns-data axfrdns tcpserver dig dnsip dnsname dnstxt dnsmx dnsqr

failed=0
# is WHAT WANTED GOT
is() {
  if [ "$2" = "$3" ]; then echo "ok: $1"; else echo "FAILED: $1: wanted '$2', got '$3'"; failed=1; fi
}

authority root 127.53.1.1 <<'DATA'
.:127.53.1.1:a.root-servers
&test:127.53.1.2:a.ns.test
&2.0.192.in-addr.arpa:127.53.1.2:a.ns.test
DATA
authority test 127.53.1.2 <<'DATA'
.test:127.53.1.2:a.ns.test
.2.0.192.in-addr.arpa:127.53.1.2:a.ns.test
=www.test:192.0.2.1:300
+www.test:192.0.2.2:300
Cwww2.test:www.test:300
@test:192.0.2.5:mail.test:10:300
@test:192.0.2.6:mail2.test:20:300
'text.test:one\001two:300
DATA
cache_folder ours 127.53.1.1
ours ours 127.53.1.53 127.53.1.54 1000000
await 127.53.1.53

mine() { env -i DNSCACHEIP=127.53.1.53 "$tools/$1" "${@:2}" 2>&1; }
theirs_say() { env DNSCACHEIP=127.53.1.53 "$@" 2>&1; }
sorted() { tr ' ' '\n' | sort | xargs; }

# The order of addresses turns from answer to answer, so they are compared as sets; a TTL falls while the answer is cached.
for words in "dnsip www.test" "dnsip www2.test" "dnsip www.test www2.test" "dnsip nowhere.test" "dnsip 192.0.2.77" "dnsname 192.0.2.1" "dnsname 192.0.2.9" "dnstxt text.test" "dnstxt www.test" "dnsmx test" "dnsmx www.test"; do
  set -- $words
  is "as Debian's: $words" "$(theirs_say "$@" | sorted)" "$(mine "$@" | sorted)"
done
without_ttl() { sed 's/^\(answer: [^ ]*\) [0-9]* /\1 /' | sort; }
for words in "a www.test" "mx test" "ptr 1.2.0.192.in-addr.arpa" "txt text.test" "a nowhere.test"; do
  is "as Debian's, but for TTLs: dnsqr $words" "$(theirs_say dnsqr $words | without_ttl)" "$(mine dnsqr $words | without_ttl)"
done

# status WANTED TOOL WORDS..
status() { mine "${@:2}" >/dev/null; is "exit status of ${*:2}" "$1" "$?"; }
status 0 dnsip www.test
# The empty word is the root.
status 0 dnsip ""
status 100 dnsip
status 100 dnsip a..b
status 100 dnsip "$(printf 'x%.0s' $(seq 64)).test"
status 100 dnsname www.test
status 100 dnsqr 0 www.test
status 100 dnsqr 65536 www.test
status 100 dnsip $'\xff\xfe'
is "what is said of bad words" "dnsip: fatal: bad arguments" "$(mine dnsip a..b)"
is "no server" "dnsip: fatal: no answer" "$(env -i DNSCACHEIP=127.53.1.99 "$tools/dnsip" www.test 2>&1)"

# A resolv.conf with comments and tabs, of which the first server is dead, in a mount namespace of its own.
if unshare -m true 2>/dev/null; then
  printf '# the servers\n; of this trial\nsearch test\nnameserver\t127.53.1.98\nnameserver 127.53.1.53 # alive\noptions ndots:1\n' > "$room/resolv.conf"
  by_file() { unshare -m sh -c 'mount --bind "$0" /etc/resolv.conf && exec env -i "$@" 2>&1' "$room/resolv.conf" "$tools/$1" "${@:2}"; }
  is "by resolv.conf, whose first server is dead" "$(mine dnsip www.test | sorted)" "$(by_file dnsip www.test | sorted)"
fi

# The greatest memory of a tool, in kilobytes.
if command -v /usr/bin/time >/dev/null; then
  most=$(env DNSCACHEIP=127.53.1.53 /usr/bin/time -f %M "$tools/dnsip" www.test 2>&1 >/dev/null | tail -n 1)
  if [ "$most" -le 8192 ]; then echo "ok: dnsip takes $most KB"; else echo "FAILED: dnsip takes $most KB"; failed=1; fi
fi

if command -v hyperfine >/dev/null; then
  hyperfine -N -w 5 -r 300 --export-csv "$room/times" "env DNSCACHEIP=127.53.1.53 $tools/dnsip www.test" "env DNSCACHEIP=127.53.1.53 dnsip www.test" >/dev/null 2>&1
  awk -F, 'NR == 2 { ours = $4 } NR == 3 { printf "dnsip of a cached name, ratio of the medians to Debian'"'"'s: %.2f\n", ours / $4 }' "$room/times"
fi
exit $failed
