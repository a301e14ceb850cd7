#!/usr/bin/env bash
# How long a service with a kept cache of 1 GB takes to load it and to save it, beside `cp` of its image: with the files in memory, and on the disk,
# where `cp` is followed by a flush as a save is. Loading is from the start until the service listens, and saving from its last event until it has
# ended, each with all that the service does besides. Three times each, of which the middle one counts: at most three times what `cp` takes is
# aimed at. Beside the seconds it tells processor time, which says more where the machine has other work. It needs 5 GB of memory and 3 GB on the
# disk. It isn't part of the gate, and is skipped where a tool is missing.
#
#   trials/image.sh PROGRAM [SIZE [memory]]
set -u
cd "$(dirname "$0")"
program=$(realpath "${1:?the program}")
size=${2:-1000000000}
source ./common.sh
needs gcc bc cmp

gcc -O2 -o "$room/image" image.c || exit 1
memory=$(mktemp -d /dev/shm/dnscache-trial.XXXXXX)
trap 'rm -rf "$memory"; finish' EXIT
address=127.53.16.53
listening=" 3510357F:0035 "
failed=0

now() { date +%s%N; }
# since MOMENT: seconds, with three decimals.
since() { bc -l <<< "scale=3; ($(now) - $1) / 1000000000"; }
# hundredths VARIABLE FIELD OF: puts the sum of two neighbouring fields of a process' times into a variable, in hundredths of a second. It starts nothing.
hundredths() {
  local fields
  read -r -a fields < "/proc/$3/stat"
  printf -v "$1" %s $((fields[$2] + fields[$2 + 1]))
}
own=13 ended=15
# note FILE SECONDS HUNDREDTHS
note() { echo "$2 $(bc -l <<< "scale=2; $3 / 100")" >> "$1"; }
# middle COLUMN FILE
middle() { cut -d' ' -f"$1" "$2" | sort -n | sed -n 2p; }

# serve FOLDER OUT [TUNABLES]: begins with the image of the folder and saves it behind one event. Notes the times of both in OUT.load and OUT.save.
serve() {
  local begun served seconds load before after
  begun=$(now)
  (cd "$1" && exec env -i PATH="$PATH" IP="$address" IPSEND=127.53.16.54 CACHESIZE="$size" IMAGE=image EVENTS=1 ${3:+GLIBC_TUNABLES="$3"} "$program" < seed 2> log) &
  served=$!
  until [[ "$(< /proc/net/udp)" == *"$listening"* ]]; do
    kill -0 "$served" 2>/dev/null || { echo "FAILED: no service: $(tail -n 1 "$1/log")"; exit 1; }
    sleep 0.001
  done
  seconds=$(since "$begun")
  hundredths load "$own" "$served"
  note "$2.load" "$seconds" "$load"
  sleep 0.2
  begun=$(now)
  printf '\0\1\1\0\0\1\0\0\0\0\0\0\11localhost\0\0\1\0\1' > "/dev/udp/$address/53"
  hundredths before "$ended" $$
  wait "$served" || { echo "FAILED: it ended with $?: $(tail -n 1 "$1/log")"; failed=1; }
  hundredths after "$ended" $$
  note "$2.save" "$(since "$begun")" "$((after - before - load))"
}
# copy FOLDER FLUSH: notes the times of `cp` in plain.cp, and those with the flush in flushed.cp.
copy() {
  local begun before after
  begun=$(now)
  hundredths before "$ended" $$
  cp "$1/image" "$1/copy"
  hundredths after "$ended" $$
  note "$room/plain.cp" "$(since "$begun")" "$((after - before))"
  [ "$2" = no ] || sync "$1/copy"
  note "$room/flushed.cp" "$(since "$begun")" "$((after - before))"
  rm "$1/copy"
}
# compare WHAT TIMES TIMES_OF_CP
compare() {
  local good=FAILED a b
  a=$(middle 1 "$2") b=$(middle 1 "$3")
  [ "$(bc -l <<< "$a <= 3 * $b")" = 0 ] || good=ok
  [ "$good" = ok ] || failed=1
  printf '%s: %s: %.2f seconds, %.2f times the %.2f of cp; ' "$good" "$1" "$a" "$(bc -l <<< "$a / $b")" "$b"
  a=$(middle 2 "$2") b=$(middle 2 "$3")
  printf 'of a processor %.2f seconds, %.2f times the %.2f of cp\n' "$a" "$(bc -l <<< "$a / $b")" "$b"
}
# try WHERE FOLDER FLUSH
try() {
  local name
  mkdir -p "$2"
  cp -r "$room/ours/." "$2"
  "$room/image" "$size" 100 > "$2/image" || exit 1
  cp "$2/image" "$room/wanted"
  sync "$2/image" "$room/wanted"
  rm -f "$room"/*.load "$room"/*.save "$room"/*.cp
  for _ in 1 2 3; do
    copy "$2" "$3"
    serve "$2" "$room/plain"
    serve "$2" "$room/large" glibc.malloc.hugetlb=1
  done
  cmp -s "$room/wanted" "$2/image" && echo "ok: the image that was saved is the one that was loaded" || { echo "FAILED: another image was saved"; failed=1; }
  for name in plain large; do
    compare "$1: loading$([ $name = plain ] || echo ' into large pages')" "$room/$name.load" "$room/plain.cp"
    compare "$1: saving$([ $name = plain ] || echo ' from large pages')" "$room/$name.save" "$room/flushed.cp"
  done
  rm -f "$2/image"
}
mkdir -p "$room/ours"
cache_folder ours 127.53.16.1
try "in memory" "$memory/service" no
[ "${3:-}" = memory ] || try "on the disk" "$room/service" yes
exit "$failed"
