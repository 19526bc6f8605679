#!/usr/bin/env bash
# Measures what a user can make the system hold, in bytes of the heap, after `rt run`: a line for each kind of what is held. It
# is the difference of two worlds at their greatest, of the same script: with all limits as they stand where none is set, and
# with those that are named at 1 or 2.
set -euo pipefail
cd "$(dirname "${BASH_SOURCE[0]}")"

file=$(mktemp)
trap 'rm -f "$file" "$file.heap"' EXIT

# The greatest heap, without what the C library has beside what is asked for.
heap() {
  valgrind --tool=massif --peak-inaccuracy=0.0 --massif-out-file="$file.heap" out/bench_times script "$file" 0 >/dev/null 2>&1
  sed -n 's/mem_heap_B=//p' "$file.heap" | sort -n | tail -1
}
# What KIND takes with these limits.
held() { limits=${*:2} bash scripts.sh hold "$1" >"$file"; heap; }
# So many of KIND, beside those that are there with the limits at 1.
more() {
  local all one
  all=$(held "$1"); one=$(held "$1" "${@:3}")
  echo "$1: $2 more take $((all - one)), each $(((all - one) / $2))"
}

# The share of a user with these limits, beside what there is at boot.
share() {
  local some none
  some=$(held "$@"); none=$(threads=0 held "$@")
  echo "share, $1${2:+, all limits at 1}: $((some - none))"
}

for users in 1 16; do bash scripts.sh users $users >"$file"; echo "boot of $users: $(heap)"; done
more processes 15 processes=1
more calls 15 processes=1
more connections 63 connections=1
more servers 63 servers=1
more blocks 255 blocks=1
more inodes 1022 inodes=2
more directories 1022 inodes=2
more pipes 255 blocks=1
more closed_pipes 1021 inodes=3
more boxes 255 blocks=1
more file 65535 file=1
more bytes 1048575 bytes=1
more short_files 1022 bytes=1
more mounts 6 mounts=2
more events 127 events=1
share all
share least processes=1 connections=1 servers=1 blocks=1 inodes=1 file=1 bytes=1 mounts=1 events=1
