#!/usr/bin/env bash
# serve [DIR]: measures `querier serve` by a load client of its own (bench/load.rs), one connection a request.
# Without a directory it makes blocks of 10,000 series of 120 samples and of 100,000 of 60 (needs rustc), and
# measures each as a block and with the same series in the head, which it fills over HTTP. For queries of one
# series, one in a hundred of them (one job), all but one value of a label and all, it prints replies a second
# and the median, the 99th percentile and the greatest time, with 1, 4 and 16 clients; then writes of 4,096
# samples by 1, 4 and 16 clients, the queries beside a writer, and the server's peak memory beside the files'
# size, after each number of clients and at the end. QUERIER names a program that is built already; else it is
# built where it stands. SECONDS_EACH is how long each class is asked (3); SHAPES are the blocks ("10000:120
# 100000:60").
set -eu
. "$(dirname "$0")/least.sh"
each=${SECONDS_EACH:-3}
find_programs querier
compile load
start() {
  servers=$((${servers:-0} + 1))
  serve "server$servers" --workers 16 "$@"
}
tell_peak() { echo "== peak memory $(awk '/VmHWM/ { print $2 * 1024 / 1e6 }' "/proc/$server/status") MB $1"; }
finish() {
  tell_peak "$1"
  stop "$server"
}
ask() { printf '%-20s' "$1"; "$work/load" "$port" "$2" "$each" get "$3"; }
select_of() { echo "/select?selector=$1&from=0&to=4611686018427387903"; }
classes() {
  echo "== $1 clients $2"
  ask "no such path" "$1" /none
  ask "one series" "$1" "$(select_of '%7B__name__%3D%22metric_3%22%2Cinstance%3D%22host-00012:9100%22%7D')"
  ask "one in a hundred" "$1" "$(select_of '%7Bjob%3D%22job-07%22%7D')"
  ask "all but one value" "$1" "$(select_of '%7Bdc%3D%22main%22%2Cjob%21%3D%22job-07%22%7D')"
  ask "all" "$1" "$(select_of '%7Bdc%3D%22main%22%7D')"
}
measure() {
  tell_peak "before a request"
  for clients in 1 4 16; do
    classes "$clients" ""
    tell_peak "so far"
  done
}
beside_writes() {
  for clients in 1 4 16; do
    printf '%-20s' "writes, $clients clients"
    "$work/load" "$port" "$clients" "$each" write
  done
  "$work/load" "$port" 1 $((each * 6)) write >"$work/beside" &
  local writer=$!
  classes 4 "beside a writer"
  wait "$writer"
  printf '%-20s' "the writer"; cat "$work/beside"
}
over() {
  start "$1"
  measure
  beside_writes
  finish "of files of $(awk -v b="$(bytes_of "$1")" 'BEGIN { print b / 1e6 }') MB"
}
if [ $# -gt 0 ]; then
  over "$1"
else
  compile make_block
  for shape in ${SHAPES:-10000:120 100000:60}; do
    series=${shape%:*} samples=${shape#*:}
    echo "== a block of $series series of $samples samples"
    make_block "${series}x$samples" "$work/block"
    over "$work/block"
    rm -r "$work/block"
    echo "== the same in the head"
    start
    printf '%-20s' "filling it"; "$work/load" "$port" fill "$series" "$samples"
    measure
    finish "with the series in the head"
  done
fi
echo "faults told: $(cat "$work"/*.faults | wc -l)"
