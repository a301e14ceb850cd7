#!/bin/bash
# Judges 64 recorded runs of 20,000 events each at once, and one at a time: audit.sh PROGRAM.
#
# Each script has the requests of a client for names that no cache has, and ticks; its recorded text is what `replay` writes of it. What is
# said: the seconds of `audit` over all, of 64 audits of one each, and of 64 replays; how many times as fast the first is; and the most memory
# that it took.
set -e
program=$(realpath "$1")
room=$(mktemp -d /tmp/dnscache-audit.XXXXXX)
trap 'rm -rf "$room"' EXIT
cd "$room"

python3 - <<'PYTHON'
def name(i, k):
    return b"".join(bytes([len(l)]) + l for l in (b"h%d" % i, b"z%d" % k, b"example", b"com")) + b"\0"

for k in range(64):
    with open("run%02d" % k, "w") as script:
        script.write("dnscache-script 2\ncachesize 1000000\nforwardonly no\nallow 127\nzone @ 198.51.100.1\n")
        script.write("seed %064x\nbegin\n" % k)
        now = 1000000
        for i in range(10000):
            now += 7
            query = (i % 65536).to_bytes(2, "big") + bytes.fromhex("01000001000000000000") + name(i, k) + bytes.fromhex("00010001")
            script.write("at %d request 127.0.0.1 4096 %s\n" % (now, query.hex()))
            script.write("at %d tick\n" % (now + 3))
        script.write("end\n")
PYTHON

seconds() { python3 -c "import sys; print('%.2f' % (float(sys.argv[2]) - float(sys.argv[1])))" "$1" "$2"; }
now() { date +%s.%N; }

begun=$(now)
for run in run??; do "$program" replay < "$run" > "$run.actions"; done
replayed=$(now)
/usr/bin/env time -f "%M" -o memory "$program" audit run?? > lines 2>/dev/null || "$program" audit run?? > lines
judged=$(now)
for run in run??; do "$program" audit "$run"; done > one_by_one
ended=$(now)

cmp lines one_by_one
[ "$(grep -c '^same run' lines)" = 64 ] || { echo "they differ"; exit 1; }
all=$(seconds "$replayed" "$judged")
each=$(seconds "$judged" "$ended")
echo "64 replays: $(seconds "$begun" "$replayed") s"
echo "64 audits, one at a time: $each s"
echo "one audit of 64: $all s"
python3 -c "import sys; print('%.2f times as fast as one at a time' % (float(sys.argv[1]) / float(sys.argv[2])))" "$each" "$all"
[ -s memory ] && echo "at most $(cat memory) kilobytes"
true
