#!/usr/bin/env bash
# check [DIR..]: measures `querier check` and a cold `querier select` of one series on block directories,
# beside `sha256sum` over the same files, on one, two and four processors (taskset). Without a directory it
# makes blocks: 10,000 series of 120 samples, 100,000 of 60, and 1,048,576 of one (needs rustc). For each it
# prints the least milliseconds of five runs of each, the parts that they are of `sha256sum`'s, and the
# greatest peak memory beside the files' size (needs GNU time). The programs take turns, so that all of them
# meet the same minutes of the machine. It builds querier where it stands, or takes the one that QUERIER
# names.
set -eu
. "$(dirname "$0")/least.sh"
find_programs querier
if [ $# = 0 ]; then
  compile make_block
  for size in 10000x120 100000x60 1048576x1; do
    make_block "$size"
    set -- "$@" "$work/$size"
  done
fi
one='metric_3{instance="host-00500:9100"}'
echo "$(nproc) processors, load $(cut -d' ' -f1-3 /proc/loadavg)"
printf '%-12s %3s %8s %9s %9s %9s %6s %6s %9s %9s\n' \
  block on MB sha256sum check select check select check-MB select-MB
for dir in "$@"; do
  mapfile -t files < <(files_of "$dir")
  for processors in 1 2 4; do
    [ "$processors" -le "$(nproc)" ] || continue
    on="taskset -c 0-$((processors - 1))"
    rm -f "$work"/least-*
    for _ in 1 2 3 4 5; do
      run_once sum $on sha256sum "${files[@]}"
      run_once check $on "$QUERIER" check "$dir"
      run_once select $on "$QUERIER" select "$one" "$dir"
    done
    awk -v n="$(basename "$dir")" -v p="$processors" -v b="$(bytes_of "$dir")" \
      -v s="$(least sum)" -v c="$(least check)" -v q="$(least select)" \
      -v m="$(peak check)" -v k="$(peak select)" 'BEGIN {
        printf "%-12s %3d %8.1f %7.1fms %7.1fms %7.1fms %6.2f %6.2f %9.1f %9.1f\n", n, p, b / 1e6,
          s / 1e3, c / 1e3, q / 1e3, c / s, q / s, m * 1024 / 1e6, k * 1024 / 1e6 }'
  done
done
