#!/usr/bin/env bash
# A service that records its run, under dnsperf with mixed questions over UDP and TCP, through tinydns and a server that answers oddly; its run,
# replayed, compared with its own log; and judged by `audit`. Then the cost of recording. It isn't part of the gate, and is skipped where a tool
# is missing.
#
#   trials/record.sh PROGRAM [QUERIES] [SECONDS]
#
# What is said: how many events and bytes were recorded, how many lines of the log the replay has and whether any differs, the audit's verdict,
# and names a second with and without RECORD. It ends with 1 where something differs.
set -u
cd "$(dirname "$0")"
program=$(realpath "${1:?the program}")
queries=${2:-100000}
seconds=${3:-10}
source ./common.sh
needs tinydns tinydns-data axfrdns tcpserver dig dnsperf python3

authority root 127.53.2.1 <<DATA
.:127.53.2.1:a.root-servers
&trial:127.53.2.2:a.ns.trial
DATA
authority trial 127.53.2.2 <<DATA
.trial:127.53.2.2:a.ns.trial
+*.w.trial:192.0.2.7:86400
Calias.trial:c1.w.trial
&odd.trial:127.53.2.3:a.ns.odd.trial
DATA

# A server that answers by turns as it should, cut short, with another id, with another name, with a failure, with half a packet, with no
# packet at all, and twice. Over TCP it closes.
cat > "$room/odd.py" <<'PYTHON'
import socket, threading
def tcp():
    server = socket.socket()
    server.setsockopt(socket.SOL_SOCKET, socket.SO_REUSEADDR, 1)
    server.bind(("127.53.2.3", 53))
    server.listen(100)
    while True:
        server.accept()[0].close()
threading.Thread(target=tcp, daemon=True).start()
server = socket.socket(socket.AF_INET, socket.SOCK_DGRAM)
server.bind(("127.53.2.3", 53))
count = 0
while True:
    query, client = server.recvfrom(512)
    answer = bytes.fromhex("c00c00010001000000050004c0000207")
    good = query[:2] + b"\x84\x00\x00\x01\x00\x01\x00\x00\x00\x00" + query[12:] + answer
    odd = [good, good[:2] + b"\x86" + good[3:], bytes([good[0] ^ 1]) + good[1:], good[:13] + b"x" + good[14:],
           good[:3] + b"\x02" + good[4:], good[:len(good) // 2], b"", good][count % 8]
    server.sendto(odd, client)
    if count % 8 == 7:
        server.sendto(good, client)
    count += 1
PYTHON
python3 "$room/odd.py" & started+=($!)

# The names: half of them in the cache, the others fetched; each tenth doesn't exist, and each hundredth is asked of the odd server.
python3 - "$queries" > "$room/names" <<'PYTHON'
import sys
for i in range(int(sys.argv[1])):
    if i % 100 == 99: print("n%d.odd.trial A" % i)
    elif i % 10 == 9: print("n%d.none.trial A" % (i % 5000))
    elif i % 2 == 0: print("c%d.w.trial A" % (i % 1000))
    elif i % 10 == 1: print("alias.trial A")
    else: print("f%d.w.trial %s" % (i, ("A", "MX", "TXT", "AAAA")[i % 4]))
PYTHON
split -n l/5 "$room/names" "$room/part."
cat "$room"/part.a[abcd] > "$room/by_udp"
mv "$room/part.ae" "$room/by_tcp"

# service NAME ADDRESS SENDFROM [RECORD]: the program with a cache of 10,000,000 bytes, whose run goes to `run`.
service() {
  cache_folder "$1" 127.53.2.1
  (cd "$room/$1" && exec env -i PATH="$PATH" IP="$2" IPSEND="$3" CACHESIZE=10000000 ${4:+RECORD=1} "$program" < seed > run 2> log) &
  started+=($!)
  await "$2"
}
rate() { sed -n 's/.*Queries per second: *\([0-9.]*\).*/\1/p'; }
failed=0

service recorded 127.53.2.53 127.53.2.54 1
dnsperf -s 127.53.2.53 -d "$room/by_udp" -n 1 -q 100 > "$room/udp" 2>&1 &
one=$!
dnsperf -s 127.53.2.53 -d "$room/by_tcp" -n 1 -q 10 -c 10 -m tcp > "$room/tcp" 2>&1
wait "$one"
sleep 5
kill "${started[-1]}"
wait "${started[-1]}" 2>/dev/null
cd "$room/recorded"
python3 - <<'PYTHON'
run = open("run", "rb").read()
whole = run[:run.rfind(b"\n") + 1]
open("whole", "wb").write(whole + b"end\n")
events = whole.split(b"begin\n", 1)[1].count(b"\n")
asked = sum(1 for line in whole.split(b"\n") if b" request " in line or b" connbytes " in line)
print("recorded: %d events in %d bytes, of which %d were cut off; %.0f bytes a question" % (events, len(run), len(run) - len(whole), len(run) / max(asked, 1)))
PYTHON
"$program" replay < whole > whole.actions || { echo "the replay ended with $?"; failed=1; }
sed -n 's/^line //p' whole.actions > replayed
echo "the log has $(wc -l < log) lines, the replay $(wc -l < replayed)"
cmp log replayed && echo "no difference" || failed=1
"$program" audit whole || failed=1
echo "sent over UDP and TCP: $(grep -c '^reply' whole.actions) and $(grep -c '^connreply' whole.actions)"
cd "$room"

for i in $(seq 1000); do echo "c$i.w.trial A"; done > "$room/cached"
measure() {
  dnsperf -s "$2" -d "$room/cached" -n 2 > /dev/null 2>&1
  dnsperf -s "$2" -d "$room/cached" -l "$seconds" -q 100 > "$room/out" 2>&1
  rate < "$room/out"
  kill "${started[-1]}" 2>/dev/null
}
service plain 127.53.2.57 127.53.2.58
measure plain 127.53.2.57 > "$room/plain.rate"
service costly 127.53.2.59 127.53.2.60 1
measure costly 127.53.2.59 > "$room/costly.rate"
echo "names in the cache a second: $(cat "$room/plain.rate") without RECORD, $(cat "$room/costly.rate") with it"
python3 -c "import sys; print('%.2f of those without' % (float(open(sys.argv[2]).read()) / float(open(sys.argv[1]).read())))" "$room/plain.rate" "$room/costly.rate"
exit "$failed"
