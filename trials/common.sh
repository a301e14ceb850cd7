# Servers for trials: authoritative ones of Debian's tinydns and axfrdns on loopback addresses. Sourced by the trials.

room=$(mktemp -d /tmp/dnscache-trial.XXXXXX)
started=()

finish() {
  for one in "${started[@]}"; do kill "$one" 2>/dev/null; done
  wait 2>/dev/null
  rm -rf "$room"
}
trap finish EXIT

# Skips the trial where a tool is missing, or where port 53 can't be had.
needs() {
  for tool in "$@"; do
    command -v "$tool" >/dev/null || { echo "skipped: no $tool"; exit 0; }
  done
  [ "$(id -u)" = 0 ] || { echo "skipped: port 53 needs root"; exit 0; }
}

# authority NAME ADDRESS: a server over UDP and TCP on this address, whose data come from standard input.
authority() {
  mkdir -p "$room/$1"
  cat > "$room/$1/data"
  (cd "$room/$1" && tinydns-data)
  chmod -R a+rX "$room" "$room/$1"
  env -i PATH="$PATH" IP="$2" ROOT="$room/$1" UID=65534 GID=65534 tinydns 2>/dev/null >/dev/null &
  started+=($!)
  env -i PATH="$PATH" IP="$2" ROOT="$room/$1" UID=65534 GID=65534 AXFR= tcpserver -DRHl0 "$2" 53 axfrdns 2>/dev/null &
  started+=($!)
}

# wildcard ROOT SERVER: at these addresses a server of the root, and one of the zone `trial`, in which every name below `w` has an address.
wildcard() {
  authority root "$1" <<DATA
.:$1:a.root-servers
&trial:$2:a.ns.trial
DATA
  authority trial "$2" <<DATA
.trial:$2:a.ns.trial
+*.w.trial:192.0.2.7:86400
DATA
}

# cache_folder NAME ROOTSERVER: a folder as dnscache reads it: clients of 127, and one server of the root.
cache_folder() {
  mkdir -p "$room/$1/ip" "$room/$1/servers"
  touch "$room/$1/ip/127"
  echo "$2" > "$room/$1/servers/@"
  head -c 128 /dev/urandom > "$room/$1/seed"
  chmod -R a+rX "$room/$1"
}

# ours NAME ADDRESS SENDFROM SIZE [FORWARDONLY]: the program of this repository, in a folder of that name.
ours() {
  (cd "$room/$1" && exec env -i PATH="$PATH" IP="$2" IPSEND="$3" CACHESIZE="$4" ${5:+FORWARDONLY=1} "$program" < seed 2> log) &
  started+=($!)
}

# theirs NAME ADDRESS SENDFROM SIZE: Debian's dnscache.
theirs() {
  (cd "$room/$1" && exec env -i PATH="$PATH" IP="$2" IPSEND="$3" CACHESIZE="$4" ROOT="$room/$1" UID=65534 GID=65534 DATALIMIT=300000000 dnscache < seed > log 2>&1) &
  started+=($!)
}

# An address at which a server answers within three seconds.
await() {
  for _ in $(seq 30); do
    dig +tries=1 +time=1 @"$1" localhost A >/dev/null 2>&1 && return
    sleep 0.1
  done
  echo "no answer from $1"
  exit 1
}
