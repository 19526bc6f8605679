#!/usr/bin/env bash
# Writes a script for `bench_times`: bash scripts.sh NAME WORDS..
set -euo pipefail

names=(a b c d e f g h i j k l m n o p)

# So many users.
users() { for ((u = 0; u < $1; u++)); do echo "user ${names[u]}"; done; }

# So many processes of each of so many users, of so many threads.
spawns() { for ((p = 0; p < $1; p++)); do for ((u = 0; u < $2; u++)); do echo "spawn ${names[u]} $3 10"; done; done; }

# A thread's call, which is received and performed.
serve() { echo "$2 $1 ${*:3}"; echo "receive 1 ${manager-ram}"; echo 'perform 1 5'; }

# A call of a user's first thread, received and performed; the thread takes its answer.
ask() { serve "${from-a.1.1}" "$@"; echo "reply ${from-a.1.1}"; }

# The same of a call with which a process' last connection goes: the disconnect pulse is received and performed too.
last() { ask "$@"; echo "receive 1 ${manager-ram}"; echo 'perform 1 5'; }

# Calls of a user's first thread in the beginning.
first() { echo "do 5 $1 ${from-a.1.1} ${*:2}"; }

# One user with a process.
alone() { users 1; spawns 1 1 4; }

# A line of ITEMS items of USERS users. In a round as many threads call, each behind all others, and the first is served.
line() {
  local users=$1 items=$2 t=() p i u
  users "$users"; spawns 16 "$users" 4
  for ((p = 1; p <= 16; p++)); do for ((u = 0; u < users; u++)); do from=${names[u]}.$p.1 first open "/${names[u]}" r 000; done; done
  for ((i = 0; i < items; i++)); do t+=("${names[i % users]}.$((i / users % 16 + 1)).$((i / users / 16 + 1))"); done
  for ((i = 1; i < items; i++)); do echo "fstat ${t[i]} 3"; done
  echo 'show a'
  for ((i = 0; i < items; i++)); do serve "${t[i]}" fstat 3; echo "reply ${t[(i + 1) % items]}"; done
}

# Four lines that ask for nothing.
nothing() { alone; echo 'show a'; for i in 1 2 3 4; do echo trace; done; }

# A thread asks for a status, by four steps or by one line.
fstat() { alone; first open /a r 000; echo 'show a'; ask fstat 3; }
do_fstat() { alone; first open /a r 000; echo 'show a'; first fstat 3; }

# A thread makes another connection to what it has open, and closes it.
dup() { alone; first open /a r 000; echo 'show a'; ask dup 3; ask close 4; }

# A thread opens what it has open already, and closes the new connection.
again() { alone; first open /a r 000; echo 'show a'; ask open /a r 000; ask close 4; }

# A thread opens COUNT connections, and closes them.
opens() { for ((i = 0; i < $1; i++)); do ask open /a r 000; done; }
closes() { for ((i = 1; i < $1; i++)); do ask close $((i + 2)); done; last close $(($1 + 2)); }
open() { alone; echo 'show a'; opens "$1"; closes "$1"; }
# The same in a new world in each round, without and with the closes.
opened() { alone; opens "$1"; }
closed() { alone; opens "$1"; closes "$1"; }

# A process starts, opens COUNT connections and ends; its disconnect pulse, with which all that is open goes, is received and
# performed.
end() { alone; echo 'show a'; echo 'spawn a 1 10'; from=a.2.1 opens "$1"; echo 'exit a.2'; echo 'receive 1 ram'; echo 'perform 1 5'; }

# A new world in each round, in which each of USERS users starts 16 processes.
spawn() { users "$1"; spawns 16 "$1" 4; }

# A stat of the root, beside USERS - 1 users who have MOUNTS mounts.
stat() {
  users "$1"; spawns 1 "$1" 4
  for ((u = 1; u < $1; u++)); do for ((m = 1; m < $2; m++)); do echo "mount ${names[u]}.1.1 /${names[u]}/${names[m]} ram"; done; done
  echo 'show a'; last stat /a
}
# A stat of a name that is not there, in a path of BYTES bytes, with MOUNTS mounts that all fit it.
resolve() {
  local path=/a/a/a/a/a/a/a/a m
  alone
  for ((m = 2; m <= $1; m++)); do echo "mount a.1.1 ${path:0:m * 2} ram"; done
  for ((m = 17; m <= $2; m++)); do if ((m % 65 == 17)); then path+=/; else path+=b; fi; done
  echo 'show a'; last stat "$path"
}

# The name of 16 letters of a number below 1,000.
letters=abcdefghij
name() { name=${letters:$1 / 100:1}${letters:$1 / 10 % 10:1}${letters:$1 % 10:1}xxxxxxxxxxxxx; }
# FILES files of 64 bytes in a directory.
files() { for ((f = 0; f < $2; f++)); do name "$f"; first open "$1/$name" rwc 644; first fill 3 64 07; first close 3; done; }
# Where a file of a depth is, and the directories above it.
dirs() { dir=/a; for ((d = 1; d < $1; d++)); do dir=$dir/d; first mkdir "$dir" 777; done; }
# Writes of so many bytes together, by a command for each.
writes() { for ((n = $2; n > 0; n -= 4096)); do "$1" fill 3 $((n < 4096 ? n : 4096)) 07; done; }

# A seek into the middle of a file of LENGTH bytes; for `read` and `write` one of BYTES bytes there too.
transfer() {
  alone; first open /a/f rwc 644; writes first "$2"; echo 'show a'; ask seek 3 set $((($2 - $3) / 2))
  case $1 in read) ask read 3 "$3" ;; write) ask fill 3 "$3" 07 ;; esac
}
# A file is made, written to LENGTH bytes and by WRITES writes of one, closed and removed.
append() {
  alone; echo 'show a'; ask open /a/f rwc 644; writes ask "$1"
  for ((w = 0; w < $2; w++)); do ask fill 3 1 07; done
  last close 3; last unlink /a/f
}
# A file is made, written in PIECES pieces of 4,096 bytes, read back, closed and removed.
whole() {
  alone; echo 'show a'; ask open /a/f rwc 644; writes ask $(($1 * 4096)); ask seek 3 set 0
  for ((w = 0; w < $1; w++)); do ask read 3 4096; done
  last close 3; last unlink /a/f
}
# An open for reading at a DEPTH, in a directory of ENTRIES names, and its close; or one that makes a file, which is removed.
lookup() { alone; dirs "$1"; files "$dir" "$2"; echo 'show a'; name $(($2 / 2)); ask open "$dir/$name" r 000; last close 3; }
make() { alone; dirs "$1"; files "$dir" "$2"; echo 'show a'; ask open "$dir/f" rwc 644; last close 3; last unlink "$dir/f"; }
# ENTRIES files in all in DIRECTORIES directories; the last of these.
spread() { for ((d = 0; d < $2; d++)); do dir=/a/${letters:d / 10:1}${letters:d % 10:1}; first mkdir "$dir" 777; files "$dir" $(($1 / $2)); done; }
# A file is made in one of these directories, and removed; or one of the files goes to the top, and back.
removed() { alone; spread "$@"; echo 'show a'; ask open "$dir/f" rwc 644; last close 3; last unlink "$dir/f"; }
renamed() { alone; spread "$@"; echo 'show a'; name 0; last rename "$dir/$name" /a/f; last rename /a/f "$dir/$name"; }
# In a new world in each round ENTRIES files are made, in the falling order of their names.
falling() { alone; for ((f = $1 - 1; f >= 0; f--)); do name "$f"; first open "/a/$name" rwc 644; first close 3; done; }
# A list of the names behind the first BEHIND of ENTRIES; or lists from each PART of them on.
behind() { if [ "$1" = 0 ]; then ask list 3; else name $(($1 - 1)); ask list 3 "$name"; fi; }
list() { alone; files /a "$1"; first open /a r 000; echo 'show a'; behind "$2"; }
parts() { alone; files /a "$1"; first open /a r 000; echo 'show a'; for ((b = 0; b < $1; b += $2)); do behind "$b"; done; }
# A directory and a file are made, used by calls of each kind and removed, beside USERS - 1 users who have FILES files.
beside() {
  users "$1"; spawns 1 "$1" 4
  for ((v = 1; v < $1; v++)); do from=${names[v]}.1.1 files "/${names[v]}" "$2"; done
  echo 'show a'
  last mkdir /a/d 777; ask open /a/d/f rwc 644; ask fill 3 64 07; ask seek 3 set 0; ask read 3 64; ask chmod 3 644; ask fstat 3; last close 3
  ask open /a/d r 000; ask list 3; last close 3; last unlink /a/d/f; last unlink /a/d
}

# USERS users with 16 processes and a pipe each, which the first PROCESSES processes of each have open.
crowd() {
  users "$1"; spawns 16 "$1" 4
  for ((u = 0; u < $1; u++)); do
    echo "mount ${names[u]}.1.1 /${names[u]}/p pipe"
    for ((p = 1; p <= $2; p++)); do from=${names[u]}.$p.1 first open "/${names[u]}/p/f" rwc 644; done
  done
}
# A write of BYTES bytes and a read of them.
place() { crowd 1 1; echo 'show a'; manager=pipe; ask fill 3 "$1" 07; ask read 3 "$1"; }
# A read of BYTES bytes, which waits, and a write of them by another thread.
late() {
  crowd 1 1; echo 'show a'; manager=pipe
  serve a.1.1 read 3 "$1"; serve a.1.2 fill 3 "$1" 07; echo 'reply a.1.1'; echo 'reply a.1.2'
}
# The same two at a mailbox, the device that a pipe of one message is.
box_for() { crowd 1 1; echo 'mount a.1.1 /a/m mailbox'; first open /a/m/f rwc 644; echo 'show a'; manager=mailbox; }
box() { box_for; ask fill 4 "$1" 07; ask read 4 "$1"; }
late_box() { box_for; serve a.1.1 read 4 "$1"; serve a.1.2 fill 4 "$1" 07; echo 'reply a.1.1'; echo 'reply a.1.2'; }
# READERS threads read a byte each, before or behind one write of as many.
readers() { for ((r = 0; r < $1; r++)); do "$2" "a.$((r / 4 + 1)).$((r % 4 + 1))"; done; }
read_one() { serve "$1" read 3 1; }
take() { echo "reply $1"; }
settle() { crowd 1 16; echo 'show a'; manager=pipe; readers "$1" read_one; serve a.16.4 fill 3 "$1" 07; readers "$1" take; take a.16.4; }
portions() { crowd 1 16; echo 'show a'; manager=pipe; serve a.16.4 fill 3 "$1" 07; readers "$1" read_one; readers "$1" take; take a.16.4; }
# As `place 1`, beside PIPES pipes that the process has open and PROCESSES processes whose threads wait in other pipes.
waiting() {
  crowd $(($2 / 16 + 1)) 1
  for ((i = 1; i <= $1; i++)); do first open "/a/p/$i" rwc 644; done
  for ((i = 1; i <= $2; i++)); do
    user=${names[i / 16]} process=${names[i / 16]}.$((i % 16 + 1))
    from=$process.1 first open "/$user/p/other" rwc 644
    for t in 1 2 3 4; do from=$process.$t first read $((i % 16 == 0 ? 4 : 3)) 1; done
  done
  echo 'show a'; manager=pipe; ask fill 3 1 07; ask read 3 1
}

# Over EVENTS connections to the pipe `other` of a user events are armed, by processes from the second on.
armed() {
  local from i
  for ((i = 0; i < $2; i++)); do
    from=$1.$((i / 64 + 2)).1
    first open "/$1/p/other" rwc 644; first notify $((i % 64 + 3)) pollarm i 5 7
  done
}
# As `place 1`, beside EVENTS events over another pipe, of the same user or of another one.
events() { crowd 2 1; armed "$1" "$2"; echo 'show a'; manager=pipe; ask fill 3 1 07; ask read 3 1; }
# EVENTS events are armed over one pipe, and a byte is written, which makes all due; it is read, and the pulses are taken.
arm_each() { for ((i = 3; i < $1 + 3; i++)); do ask notify $i pollarm i 5 7; done; }
pipe_for() { crowd 1 2; for ((i = 1; i < $1; i++)); do first open /a/p/f rwc 644; done; echo 'show a'; manager=pipe; }
trigger() { pipe_for "$1"; arm_each "$1"; from=a.2.1 ask fill 3 1 07; ask read 3 1; for ((i = 0; i < $1; i++)); do echo 'pulse a.1'; done; }
# The same with no events armed, so that no pulses come; and arming, with the poll of each that takes the event away.
untriggered() { pipe_for "$1"; from=a.2.1 ask fill 3 1 07; ask read 3 1; }
notify() { pipe_for "$1"; arm_each "$1"; for ((i = 3; i < $1 + 3; i++)); do ask notify $i poll i 5 7; done; }
poll() { pipe_for "$1"; for ((i = 3; i < $1 + 3; i++)); do ask notify $i poll i 5 7; done; }

# What one user holds, filled to the limit of each name, whose lines `limit a NAME N` come from `limits`. With no threads
# (`threads=0`) every process is refused, and so is all that follows.
hold() { users 1; for name in $limits; do echo "limit a ${name/=/ }"; done; "hold_$1"; echo 'show a'; }
long() { path=$(printf '%064d' "$1"); }
each() { local at; for ((at = 0; at < $1; at++)); do "${@:2}" "$at"; done; }
start() { spawns "$1" 1 "${threads-4}"; }
by() { from=a.$(($1 + 1)).1 "${@:2}"; }
pipes_at() { echo "mount a.1.1 /a/p pipe"; }
file() { long "$1"; first open "/a/$path" wc 600; writes first "$2"; first close 3; }
hold_processes() { start 16; }
hold_calls() { start 16; pipes_at; each 16 wait_all; }
wait_all() { by "$1" first open /a/p/f rwc 600; for t in 1 2 3 4; do from=a.$(($1 + 1)).$t first fill 3 4096 07; done; }
hold_connections() { start 1; first open /a r 000; each 63 dup_again; }
dup_again() { first dup 3; }
hold_servers() { start 1; each 64 leave_server /a; }
leave_server() { echo "stat a.1.1 $1"; echo 'interrupt a.1.1'; echo 'reply a.1.1'; }
hold_blocks() { start 4; each 256 open_top; }
open_top() { by $(($1 / 64)) first open /a r 000; }
hold_inodes() { start 1; each 1023 file_of 0; }
file_of() { file "$2" "$1"; }
hold_directories() { start 1; each 1023 deeper; }
deeper() { if [ $(($1 % 2)) = 0 ]; then long "$1"; dir=/a/$path; first mkdir "$dir" 700; else first mkdir "$dir/$path" 700; fi; }
hold_pipes() { start 4; pipes_at; each 256 full_pipe; }
full_pipe() { long "$1"; by $(($1 / 64)) first open "/a/p/$path" rwc 600; by $(($1 / 64)) first fill $(($1 % 64 + 3)) 4096 07; }
hold_closed_pipes() { start 1; pipes_at; each 1022 closed_pipe; }
closed_pipe() { long "$1"; first open "/a/p/$path" rwc 600; first fill 3 4096 07; first close 3; }
hold_boxes() { start 4; echo 'mount a.1.1 /a/p mailbox'; each 256 full_pipe; }
hold_file() { start 1; file 0 65536; }
hold_bytes() { start 1; each 16 file_of 65536; }
hold_short_files() { start 1; each 1023 file_of 1; }
hold_mounts() { start 1; each 7 mount_far ram; }
mount_far() { echo "mount a.1.1 /a$(printf "/$(printf '%063d' "$2")%.0s" {1..15}) $1"; }
hold_events() { start 4; each 128 open_top; each 128 arm_at; }
arm_at() { by $(($1 / 64)) first notify $(($1 % 64 + 3)) tranarm io 5 7; }
# One process with what one of each lets it have, whose four threads sent the longest message.
hold_least() { start 1; first open /a r 000; first notify 3 tranarm io 5 7; each 4 send_long; }
send_long() { echo "raw a.$(($1 / 4 + 1)).$(($1 % 4 + 1)) 3 $(printf '07%.0s' {1..4168})"; }
# All at once: 8 mounts; all bytes, in 16 files; 1,000 pipes, of which 244 are open and full; 16 processes with 64 connections each; 256
# blocks; 128 events; 64 server connections at two managers; the longest message of each thread.
hold_all() {
  start 16; pipes_at; each 6 mount_far ram
  each 16 file_of 65536; for ((f = 244; f < 1000; f++)); do closed_pipe $f; done
  each 244 full_of_61; each 12 dup_ram; each 12 dup_pipe; each 128 arm_of_61
  each 52 leave_server /a; for ((s = 0; s < 60; s++)); do leave_pipe_server; done; each 64 send_long
}
full_of_61() { long "$1"; by $(($1 / 61)) first open "/a/p/$path" rwc 600; by $(($1 / 61)) first fill $(($1 % 61 + 3)) 4096 07; }
dup_ram() { by $(($1 + 4)) first open /a r 000; for ((c = 1; c < 64; c++)); do by $(($1 + 4)) first dup 3; done; }
dup_pipe() { by $(($1 / 3)) first dup 3; }
arm_of_61() { by $(($1 / 61)) first notify $(($1 % 61 + 3)) tranarm io 5 7; }
leave_pipe_server() { echo 'stat a.5.1 /a/p'; echo 'interrupt a.5.1'; echo 'reply a.5.1'; }

"$@"
