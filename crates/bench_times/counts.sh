#!/usr/bin/env bash
# Counts the instructions of each round that docs/BENCH.md tells of, after `rt run`: a line for each, with its words. A round
# is the difference of two runs with different rounds, over the difference. The C library is told not to clear or copy blocks
# by the one instruction that is counted once for each byte, which it uses on some processors.
set -euo pipefail
cd "$(dirname "${BASH_SOURCE[0]}")"

export GLIBC_TUNABLES=glibc.cpu.x86_rep_stosb_threshold=1000000:glibc.cpu.x86_rep_movsb_threshold=1000000
file=$(mktemp)
trap 'rm -f "$file"' EXIT

count() { valgrind --tool=callgrind --callgrind-out-file=/dev/null out/bench_times "$@" 2>&1 | sed -n 's/.*Collected : //p'; }
round() { echo "$(($(count "${@:2}" $(($1 * 3))) - $(count "${@:2}" "$1"))) $(($1 * 2))" | awk '{ printf "%.0f\n", $1 / $2 }'; }
calls() { echo "${*:2}: $(round "$@")"; }
script() { bash scripts.sh "${@:2}" >"$file"; echo "${*:2}: $(round "$1" script "$file")"; }
session() { bash scripts.sh "${@:2}" >"$file"; echo "session ${*:2}: $(round "$1" session "$file")"; }

script 10000 nothing; script 1000 fstat; script 1000 do_fstat; session 1000 do_fstat; script 1000 dup; script 1000 again
for at in '1 10' '1 64' '4 256' '16 1000'; do script 20 line $at; done
for count in 1 8 64; do script 100 open $count; done
for count in 1 64; do for kind in opened closed; do script 100 $kind $count; done; done
for at in '1 1' '4 8' '16 1' '16 8'; do script 1000 stat $at; done
for at in '1 20' '8 20' '1 1024' '8 1024'; do script 1000 resolve $at; done
for count in 0 1 8 64; do script 100 end $count; done
for users in 1 4 16; do script 50 spawn $users; done
for items in 10 100 1000 100000; do calls 10000 line $items; done
for bytes in 0 20 1024; do for kind in encode read; do calls 1000 $kind $bytes; done; done
for length in 4096 61440; do for kind in seek write read; do for bytes in 1 512 4096; do script 1000 transfer $kind $length $bytes; done; done; done
for length in 4096 32768 61440; do for writes in 0 1 2 3; do script 100 append $length $writes; done; done
for kind in lookup make; do for at in '1 10' '1 1000' '8 10' '8 1000'; do script 300 $kind $at; done; done
for kind in removed renamed; do for at in '10 1' '1000 1' '990 30'; do script 300 $kind $at; done; done; script 2 falling 1000
for at in '10 0' '240 0' '1000 0' '1000 240' '1000 990'; do script 300 list $at; done; script 50 parts 1000 240
for writes in 0 1 4 16; do script 100 whole $writes; done
for at in '1 0' '16 0' '16 1' '16 100' '16 1000'; do script 200 beside $at; done
for bytes in 1 4096; do for kind in place late box late_box; do script 1000 $kind $bytes; done; done
for readers in 0 1 63; do for kind in settle portions; do script 100 $kind $readers; done; done
for at in '0 0' '63 0' '0 15' '63 15' '0 255'; do script 1000 waiting $at; done
for at in 'a 0' 'a 1' 'a 64' 'a 128' 'b 128'; do script 1000 events $at; done
for kind in trigger untriggered notify poll; do for events in 1 64; do script 100 $kind $events; done; done
