#!/usr/bin/env bash
# How long `./lxfi` takes for four programs at three sizes each, and how long `lli` takes to interpret the same text
# where it is installed and the text stands alone. No test: the numbers depend on the machine. Build the program first
# (`./lxfi` does it); PROGRAM=.. measures another build, so that two are told in one run.
#
# What a loop costs is the growth from the least size to the greatest, so that reading, linking and starting do not
# count. `lli` interprets only with `-jit-kind=mcjit` beside `-force-interpreter`: without it, it compiles all the same.
set -u
top=$(cd "$(dirname "$(readlink -f "${BASH_SOURCE[0]}")")/.." && pwd) || exit 70
work=$(mktemp -d) || exit 70
trap 'rm -rf "$work"' EXIT
cd "$work" || exit 70
program=${PROGRAM:-$top/lxfi}
lli=$(command -v lli-14 || command -v lli || true)
[ -n "$lli" ] || echo "lli is not installed: it is left out" >&2

# A loop of arithmetic: three instructions a round.
cat >arithmetic.ll <<'LL'
define i64 @loop(i64 %n) {
a:
  br label %l
l:
  %i = phi i64 [ 0, %a ], [ %j, %l ]
  %j = add i64 %i, 1
  %c = icmp ult i64 %j, %n
  br i1 %c, label %l, label %e
e:
  ret i64 %j
}
LL

# The same with a store in each round: four instructions, and an event for each store.
cat >stores.ll <<'LL'
@g = global i64 0
define i64 @loop(i64 %n) {
a:
  br label %l
l:
  %i = phi i64 [ 0, %a ], [ %j, %l ]
  %j = add i64 %i, 1
  store i64 %j, ptr @g
  %c = icmp ult i64 %j, %n
  br i1 %c, label %l, label %e
e:
  ret i64 %j
}
LL

# A C file: bytes put into a ring and taken again, 79 instructions a round, six calls among them.
cp "$top/examples/c/ring.ll" ring.ll || exit 70

# A loop that crosses: three instructions a round and a call of the kernel, which has an action before its body and one
# behind it.
cat >crossings.ll <<'LL'
@g = global i64 0
declare i64 @next(ptr, i64)
define i64 @loop(i64 %n) {
a:
  br label %l
l:
  %i = phi i64 [ 0, %a ], [ %j, %l ]
  %j = call i64 @next(ptr @g, i64 %i)
  %c = icmp ult i64 %j, %n
  br i1 %c, label %l, label %e
e:
  ret i64 %j
}
LL
cat >crossings_kernel.ll <<'LL'
define i64 @next(ptr %p, i64 %n) {
  %m = add i64 %n, 1
  ret i64 %m
}
LL
cat >crossings.txt <<'TEXT'
interface 1
export next : i64 (ptr p, i64 n) pre(check(write, p, 8)) post(check(write, p, 8))
TEXT

# seconds STATUS COMMAND..: the least of three runs, or nothing where one has another exit status
seconds() {
  local wanted=$1 best= start end took status
  shift
  for _ in 1 2 3; do
    start=$(date +%s.%N)
    "$@" >said 2>&1
    status=$?
    end=$(date +%s.%N)
    if [ "$status" -ne "$wanted" ]; then
      { echo "$*: status $status, not $wanted:"; head -5 said; } >&2
      return
    fi
    took=$(awk -v a="$start" -v b="$end" 'BEGIN { printf "%.4f", b - a }')
    if [ -z "$best" ] || awk -v a="$took" -v b="$best" 'BEGIN { exit !(a < b) }'; then best=$took; fi
  done
  echo "$best"
}

# interpreted NAME TYPE FUNCTION ROUNDS RETURNED: what lli takes for the same call, whose answer it has to give too
interpreted() {
  {
    cat "$1.ll"
    printf 'define i32 @main() {\n  %%r = call %s @%s(%s %s)\n' "$2" "$3" "$2" "$4"
    printf '  %%wrong = icmp ne %s %%r, %s\n  %%status = zext i1 %%wrong to i32\n  ret i32 %%status\n}\n' "$2" "$5"
  } >main.ll
  seconds 0 "$lli" -opaque-pointers -jit-kind=mcjit -force-interpreter main.ll
}

# measure NAME TYPE FUNCTION A_ROUND BESIDE ROUNDS..: a call whose fuel is just enough for its instructions, over the
# kernel and the interface that are named, or none
kernel=none
interface=none
measure() {
  local name=$1 type=$2 function=$3 a_round=$4 beside=$5 rounds steps ours theirs returned
  shift 5
  for rounds in "$@"; do
    steps=$((a_round * rounds + beside))
    printf 'lxfi case 1\nkernel %s\ninterface %s\nmodule m %s.ll\nthread\ncall m:%s %s fuel %s\n' \
      "$kernel" "$interface" "$name" "$function" "$rounds" "$((steps + 1))" >bench.case
    ours=$(seconds 0 "$program" run bench.case)
    returned=$(sed -n 's/^call 0.0 .* returned //p' said)
    theirs=
    if [ -n "$lli" ] && [ -n "$ours" ]; then
      theirs=$(interpreted "$name" "$type" "$function" "$rounds" "$returned")
    fi
    echo "$name $steps ${ours:-failed} ${theirs:-none}"
  done | awk -v a_round="$a_round" '{
    printf "%-11s %8d instructions  lxfi %s s", $1, $2, $3
    if ($4 != "none") printf "  lli %s s", $4
    printf "\n"
    if (NR == 1) { name = $1; least = $2; ours = $3; theirs = $4 }
    most = $2; our_last = $3; their_last = $4
  } END {
    million = (most - least) / 1000000
    if (million <= 0 || ours == "failed" || our_last == "failed") exit
    printf "%-11s a million more        lxfi %.4f s", name, (our_last - ours) / million
    printf "  a round %.0f ns", a_round * (our_last - ours) / million * 1000
    if (theirs != "none" && their_last != "none") {
      printf "  lli %.4f s", (their_last - theirs) / million
      if (their_last > theirs) printf "  %.1f times", (our_last - ours) / (their_last - theirs)
    }
    printf "\n"
  }'
}

measure arithmetic i64 loop 3 2 3333 33333 333333
measure stores i64 loop 4 2 2500 25000 250000
# Each of its calls owns bytes of the stack for a while.
measure ring i32 ring_sum 79 13 127 1270 12700
# Each of its rounds crosses once: the call, the two actions and the return cost a unit each.
kernel='file crossings_kernel.ll' interface='file crossings.txt' lli= measure crossings i64 loop 7 2 1428 14285 142857
