#!/usr/bin/env bash
# select: measures `querier select` on blocks that it makes (needs rustc, and GNU time): all series of 10,000
# x 120 beside `sha256sum` of the files and `wc -c` of the answer, all of 100,000 x 60, selectors over both,
# and 63 blocks of one series. For each selector it prints the intervals of the block's certificate, the rows,
# the least milliseconds of five runs, those that are left when the least of opening alone is taken away (a
# selector of no series), and the megabytes of the answer and of the greatest peak memory. It builds querier
# where it stands, or takes the one that QUERIER names.
set -eu
. "$(dirname "$0")/least.sh"
find_programs querier
compile make_block
for size in 10000x120 100000x60; do make_block "$size"; done
# found PATTERN NAME: how many times a text is in the answer under a name.
found() {
  grep -oF "$1" "$work/told-$2" | wc -l
}
# asked BLOCK NAME SELECTOR WORD..: measures one selector beside opening alone.
asked() {
  local dir=$work/$1 name=$2 selector=$3
  shift 3
  rm -f "$work"/least-*
  for _ in 1 2 3 4 5; do
    run_once none "$QUERIER" select 'none{dc="none"}' "$dir"
    run_once asked "$QUERIER" select "$@" "$selector" "$dir"
  done
  awk -v d="$(basename "$dir")" -v n="$name" \
    -v i="$(found '"until":' asked)" -v r="$(found '"labels":' asked)" -v o="$(least none)" \
    -v t="$(least asked)" -v b="$(wc -c <"$work/told-asked")" -v m="$(peak asked)" 'BEGIN {
      printf "%-11s %-34s %9d %8d %8.1fms %8.1fms %8.1f %8.1f\n", d, n, i, r / 2, t / 1e3, (t - o) / 1e3,
        b / 1e6, m * 1024 / 1e6 }'
}
echo "$(nproc) processors, load $(cut -d' ' -f1-3 /proc/loadavg)"
dir=$work/10000x120
mapfile -t files < <(files_of "$dir")
for _ in 1 2 3 4 5; do
  run_once sum sha256sum "${files[@]}"
  run_once all "$QUERIER" select '{dc="main"}' "$dir"
  run_once count wc -c "$work/told-all"
done
awk -v s="$(least sum)" -v c="$(least count)" -v t="$(least all)" -v m="$(peak all)" 'BEGIN {
  printf "10000x120, all series: %.1f ms; sha256sum %.1f ms, wc -c %.1f ms, ", t / 1e3, s / 1e3, c / 1e3
  printf "part of 1.5 x sha256sum + wc -c: %.2f; peak %.1f MB\n", t / (1.5 * s + c), m * 1024 / 1e6 }'
printf '%-11s %-34s %9s %8s %10s %10s %8s %8s\n' \
  block selector intervals rows all more answer-MB peak-MB
for size in 10000x120 100000x60; do
  first=--from=1700006400000
  last=--to=1700006400000
  asked "$size" 'one series' 'metric_3{instance="host-00500:9100"}'
  asked "$size" '= one value in a hundred' '{job="job-07"}'
  asked "$size" '!= one value' '{job!="job-07"}' "$first" "$last"
  asked "$size" '=~ of ten values' '{job=~"job-0[0-9]"}'
  asked "$size" 'an absent value' '{job="absent"}'
  asked "$size" '__name__=~"metric_.*", one time' '{__name__=~"metric_.*"}' "$first" "$last"
  asked "$size" 'instance=~"host-.*", one time' '{instance=~"host-.*"}' "$first" "$last"
  asked "$size" 'all series' '{dc="main"}'
done
make_block 1x120 "$work/single"
mapfile -t files < <(files_of "$work/single")
blocks=()
for _ in $(seq 63); do blocks+=("$work/single"); done
rm -f "$work"/least-*
for _ in 1 2 3 4 5; do
  run_once single "$QUERIER" select '{dc="main"}' "$work/single"
  run_once many "$QUERIER" select '{dc="main"}' "${blocks[@]}"
  run_once sum sha256sum "${files[@]}"
done
awk -v o="$(least single)" -v t="$(least many)" -v s="$(least sum)" -v m="$(peak many)" 'BEGIN {
  printf "one block of one series of 120 samples: %.1f ms, sha256sum %.1f ms; ", o / 1e3, s / 1e3
  printf "63 of them: %.1f ms, peak %.1f MB\n", t / 1e3, m * 1024 / 1e6 }'
