#!/usr/bin/env bash
# Times of the program on the least and the largest pool beside `cp` of the same file: the least of five runs, in milliseconds, and how many
# times `cp` each takes; the times of ten million stores, and of ten thousand blocks reserved, by one lane alone; and those of 51,200,000 steps of
# a lane on shared words, 153,600 where they are ORs, and how many times a raw step of the kit's table each takes; and those of 100,000 transactions,
# and how many times PMDK's each takes; and those of scripts of 8,000 transactions on one lane, two and four, beside as many threads of PMDK's. All
# are rows of bench/times.csv, which a run makes anew.
# `check` and `info` have limits: of the largest pool 20 times `cp`, and of the least one 1.5 times `/bin/true` and `cp` together. `exec` on two lanes
# is to take at most 8 times `cp` on the largest pool, which it does not yet. A lane's step is to
# take at most three times the raw one, and a transaction at most PMDK's time, on the largest pool as on the least. A run that passes a limit says
# so, and ends with status 1. Run it by `make bench`; it is no part of the gate.
set -euo pipefail
cd "$(dirname "$0")/.."
program=build/pmempool
table=bench/times.csv
folder=$(mktemp -d)
shared=$(mktemp -d -p /dev/shm)
trap 'rm -rf "$folder" "$shared"' EXIT
head="$(date -u +%Y-%m-%dT%H:%MZ),$(nproc),$(git rev-parse --short HEAD)"
passed=0

# least COMMAND..: the least time of five runs, in microseconds; $folder/new is removed before each run
least() {
  local best=999999999 start end
  for _ in 1 2 3 4 5; do
    rm -f "$folder/new"
    start=$(date +%s%N)
    "$@" > "$folder/out"
    end=$(date +%s%N)
    if [ $(((end - start) / 1000)) -lt $best ]; then best=$(((end - start) / 1000)); fi
  done
  echo "$best"
}

# row POOL NAME TIME [BASE [LIMIT [OF]]]: a row of the table, with the bytes of the pool; the times in microseconds. The base is the time of what OF
# says: of `cp`, or, where there is no pool, of the raw step
row() {
  local milliseconds times='' limit='' base=cp
  if [ -z "$1" ]; then base='the raw step'; fi
  if [ -n "${6-}" ]; then base=$6; fi
  milliseconds=$(awk "BEGIN { printf \"%.2f\", $3 / 1000 }")
  if [ -n "${4-}" ]; then times=$(awk "BEGIN { printf \"%.1f\", $3 / $4 }"); fi
  if [ -n "${5-}" ]; then limit=$(awk "BEGIN { printf \"%.2f\", $5 / 1000 }"); fi
  echo "$head,$1,\"$2\",$milliseconds,$times,$limit" >> "$folder/table"
  printf '%-60s %10s ms %10s %s\n' "$2" "$milliseconds" "${times:+$times times $base}" "${limit:+at most $limit ms}"
  if [ -n "${5-}" ] && [ "$3" -gt "$5" ]; then echo "$2${1:+ of $1 bytes} is too slow"; passed=1; fi
}

echo 'date,processors,commit,pool_bytes,what,milliseconds,times,limit_milliseconds' > "$folder/table"
printf 'lane 0\nbegin root\nadd root 0 8\nwrite root 0 0102030405060708\ncommit\n' > "$folder/script"
{ cat "$folder/script"; printf 'lane 1\nbegin root\ncommit\n'; } > "$folder/lanes"

for shape in "1 1" "32 32"; do
  set -- $shape
  pool="$folder/pool-$1-$2"
  "$program" create "$pool" --lanes "$1" --zones "$2" --id 7 --layout bench --root 64 > /dev/null
  bytes=$(stat -c %s "$pool")
  true=$(least /bin/true)
  copy=$(least cp "$pool" "$folder/new")
  create=$(least "$program" create "$folder/new" --lanes "$1" --zones "$2" --id 7 --layout bench --root 64)
  dump=$(least "$program" dump "$pool")
  check=$(least "$program" check "$pool")
  [ "$(cat "$folder/out")" = consistent ]
  info=$(least "$program" info "$pool")
  [ "$(wc -l < "$folder/out")" = 12 ]
  exec=$(least "$program" exec "$pool" --script "$folder/script" --out "$folder/new" --layout bench)
  if [ "$shape" = "1 1" ]; then limit=$(((true + copy) * 3 / 2)); else limit=$((copy * 20)); fi
  echo "a pool of $bytes bytes ($1 lanes, $2 zones)"
  row "$bytes" /bin/true "$true" "$copy"
  row "$bytes" cp "$copy" "$copy"
  row "$bytes" create "$create" "$copy"
  row "$bytes" dump "$dump" "$copy"
  row "$bytes" check "$check" "$copy" "$limit"
  row "$bytes" info "$info" "$copy" "$limit"
  row "$bytes" 'exec of one small write' "$exec" "$copy"
  if [ "$shape" != "1 1" ]; then
    exec=$(least "$program" exec "$pool" --script "$folder/lanes" --out "$folder/new" --layout bench)
    row "$bytes" 'exec of one small write on two lanes' "$exec" "$copy" $((copy * 8))
  fi
done

# The other two are programs of their own, outside the gate: their files end in .in, so that the gate takes them for no crate's. They are proved and
# built in a root of their own beside copies of the crates that they use, with the work that the checks of these crates kept.
(cd crates/solo_runs && rt lib) > build/bench.log 2>&1
root="$folder/root"
mkdir -p "$root/crates"
cp HANDLES "$root/"
for crate in pm_words pm_layout pm_raw pm_header pm_record pm_objects pm_image solo_view solo_memory solo_world solo_runs; do
  grep "^$crate:" crates.txt
  cp -a "crates/$crate" "$root/crates/"
done > "$root/crates.txt"
printf '%s\n' 'stores: solo_memory solo_view' 'reserve: pm_layout solo_memory solo_runs solo_view solo_world' >> "$root/crates.txt"
(cd bench && find stores reserve -name '*.in') | while read -r file; do
  install -D -m 644 "bench/$file" "$root/crates/${file%.in}"
done
for name in stores reserve; do
  (cd "$root/crates/$name" && rt run) >> build/bench.log 2>&1
done

stores=$(least "$root/crates/stores/out/stores")
# eight stores, a flush and a drain each of 1,250,000 times
[ "$(cat "$folder/out")" = 12500000 ]
row '' '10000000 stores and a flush and a drain after each eighth' "$stores"

reserve=$(least "$root/crates/reserve/out/reserve")
[ "$(cat "$folder/out")" = 10000 ]
row '' '10000 blocks for objects of 64 bytes in a pool of 32 zones' "$reserve"

# Steps on shared words. The program's start, and that of its pool, are taken off: it is run for one round of 512 steps, and for 100,000 more. A
# lane's stores have one flush and one drain a round. A lock with its release is two changes of its word. A lane may OR only as it applies the log of
# a call, and the rest of the call is not to count. So the program itself takes the time of each block of 32 ORs by the clock, of a lane's and of raw
# ones alike, and prints the sum. What the readings of the clock take, 0.8 nanoseconds an OR, is taken off from both.
(cd crates/pm_lane_bench && rt run -- raw-store 1) >> build/bench.log 2>&1

# least_user COMMAND..: the least processor time of five runs, in microseconds: beside other work on the machine it says more than the clock
least_user() {
  local best=999999999 seconds micros TIMEFORMAT=%3U
  for _ in 1 2 3 4 5; do
    seconds=$({ time "$@" > "$folder/out"; } 2>&1)
    micros=$(awk "BEGIN { printf \"%d\", $seconds * 1000000 }")
    if [ "$micros" -lt $best ]; then best=$micros; fi
  done
  echo "$best"
}

# steps KIND: the processor time of 51,200,000 steps of the kind
steps() {
  local one many
  one=$(least_user crates/pm_lane_bench/out/pm_lane_bench "$1" 1)
  many=$(least_user crates/pm_lane_bench/out/pm_lane_bench "$1" 100001)
  [ "$(cat "$folder/out")" = '100001 rounds' ]
  echo $((many - one))
}

# ors KIND: the least time of a hundred runs that 153,600 ORs of the kind took with the readings of the clock, in nanoseconds: the runs are short, so
# that other work on the machine leaves some of them alone
ors() {
  local best=999999999999 nanos
  for _ in $(seq 100); do
    crates/pm_lane_bench/out/pm_lane_bench "$1" 300 > "$folder/out"
    [ "$(head -n 1 "$folder/out")" = '300 rounds' ]
    nanos=$(awk 'NR == 2 { print $1 }' "$folder/out")
    if [ "$nanos" -lt "$best" ]; then best=$nanos; fi
  done
  echo "$best"
}

raw_store=$(steps raw-store)
row '' '51200000 raw stores' "$raw_store" "$raw_store"
clock=$(ors clock)
raw_or=$((($(ors raw-or) - clock) / 1000))
row '' '153600 raw ORs' "$raw_or" "$raw_or"
store=$(steps lane-store)
row '' '51200000 stores of a lane, beside raw stores' "$store" "$raw_store" $((3 * raw_store))
or=$((($(ors lane-or) - clock) / 1000))
row '' '153600 ORs of a lane, beside raw ORs' "$or" "$raw_or" $((3 * raw_or))
lock=$(steps lane-lock)
row '' '51200000 locks and releases of a lane, beside raw stores' "$lock" "$raw_store" $((3 * raw_store))

# Transfers of two words, each a transaction under the root's lock: 100,000 on the least and on the largest pool, and, in the same run, the same ones
# by PMDK's libpmemobj where that is there, its pool in shared memory that is taken for persistent. Each program tells the processor time of its
# transfers. The three run in turn; of each the least of ten runs counts.
echo '100,000 transfers'
(cd crates/pm_transfers && rt run -- 1 1 1 1) >> build/bench.log 2>&1
pmdk=yes
if ! cc -O2 -o build/pmdk_transfers bench/pmdk_transfers.c -lpmemobj -lpthread 2>> build/bench.log; then
  pmdk=''
  echo "PMDK's libpmemobj is not there (on Debian: apt-get install libpmemobj-dev), and has no row"
fi
declare -A best=() digest=()

# transfer WHO COMMAND..: one run of 100,000 transfers, whose nanoseconds count where they are the least
transfer() {
  local who=$1 nanos
  shift
  "$@" > "$folder/out"
  nanos=$(awk '$1 == "nanoseconds" { print $2 }' "$folder/out")
  digest[$who]=$(head -n 3 "$folder/out")
  if [ -z "${best[$who]-}" ] || [ "$nanos" -lt "${best[$who]}" ]; then best[$who]=$nanos; fi
}

for _ in 1 2 3 4 5 6 7 8 9 10; do
  if [ -n "$pmdk" ]; then
    rm -f "$shared/pool"
    transfer pmdk env PMEM_IS_PMEM_FORCE=1 build/pmdk_transfers "$shared/pool" 1 100000
  fi
  transfer least crates/pm_transfers/out/pm_transfers 1 100000 1 1 timed
  transfer largest crates/pm_transfers/out/pm_transfers 1 100000 32 32 timed
done
[ "${digest[least]}" = "${digest[largest]}" ]
least=$((best[least] / 1000))
largest=$((best[largest] / 1000))
if [ -n "$pmdk" ]; then
  [ "${digest[pmdk]}" = "${digest[least]}" ]
  base=$((best[pmdk] / 1000))
  row '' "100000 transfers of two words by PMDK" "$base" "$base" '' "PMDK's time"
  row 278528 '100000 transfers of two words, beside PMDK' "$least" "$base" "$base" "PMDK's time"
  row 8785920 '100000 transfers of two words, beside PMDK' "$largest" "$base" "$base" "PMDK's time"
else
  row 278528 '100000 transfers of two words' "$least"
  row 8785920 '100000 transfers of two words' "$largest"
fi
if [ "$largest" -gt $((least * 11 / 10)) ]; then
  echo 'transfers on the largest pool take more than 1.1 times as long as on the least'
  passed=1
fi

# Transfers through scripts, each a transaction under the root's lock: 8,000 on one lane, on two and on four, and the same ones by as many threads
# of PMDK's; by the clock. What `exec` of no transfer takes is taken off, so the time is that of reading the script, of the run and of its report.
echo '8,000 transfers through scripts'
pool="$folder/pool-transfers"
"$program" create "$pool" --lanes 4 --zones 1 --id 7 --layout bench --root 512 > /dev/null
many=8000
for lanes in 1 2 4; do
  bench/transfers.py script 1 $many $lanes > "$folder/many"
  for lane in $(seq 0 $((lanes - 1))); do printf 'lane %s\nbegin root\ncommit\n' "$lane"; done > "$folder/none"
  none=$(least "$program" exec "$pool" --script "$folder/none" --out "$folder/new" --layout bench)
  took=$(least "$program" exec "$pool" --script "$folder/many" --out "$folder/new" --layout bench)
  [ "$(grep -c ' done ' "$folder/out")" = $many ]
  left=$("$program" dump "$folder/new" | bench/transfers.py digest $many)
  took=$((took - none))
  name="$many transfers by scripts on $lanes lane(s)"
  if [ -n "$pmdk" ]; then
    for _ in 1 2 3 4 5 6 7 8 9 10; do
      rm -f "$shared/pool"
      transfer "pmdk-$lanes" env PMEM_IS_PMEM_FORCE=1 build/pmdk_transfers "$shared/pool" 1 $many $lanes
    done
    [ "${digest[pmdk-$lanes]}" = "$left" ]
    base=$((best[pmdk-$lanes] / 1000))
    row '' "$many transfers by PMDK on $lanes thread(s)" "$base" "$base" '' "PMDK's time"
    row '' "$name, beside PMDK" "$took" "$base" '' "PMDK's time"
  else
    row '' "$name" "$took"
  fi
done

# A script of almost a mebibyte, on two lanes, is run in a second.
bench/transfers.py script 1 17000 2 > "$folder/all"
head -c 1048576 "$folder/all" | tac | sed -n '/^commit$/,$p' | tac > "$folder/many"
took=$(least "$program" exec "$pool" --script "$folder/many" --out "$folder/new" --layout bench)
row '' "exec of a script of $(stat -c %s "$folder/many") bytes on two lanes" "$took" '' 1000000

cp "$folder/table" "$table"
exit $passed
