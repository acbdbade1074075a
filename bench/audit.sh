#!/usr/bin/env bash
# audit: measures `auditor` over replies of `querier select`, beside `querier check` of the same blocks, on
# blocks that it makes (needs rustc, and GNU time). For each reply it prints the megabytes of files and reply,
# the least seconds of three runs of both and their ratio, the processor seconds of these runs, and the
# auditor's peak memory beside the sum of twice the files and eight times the reply. `walk` is a reply that
# names no block: the files are read and walked, and one look is made at each series. `one` selects one
# series, `none` no series, by one interval, and `all` each series, by an interval for each. It builds both
# programs where they stand, or takes those that QUERIER and AUDITOR name.
set -euo pipefail
. "$(dirname "$0")/least.sh"
find_programs querier auditor
compile make_block
printf '%-12s %-5s %8s %8s %8s %8s %6s %9s %9s %8s %8s\n' \
  block reply files-MB reply-MB check auditor ratio check-cpu audit-cpu peak-MB bound-MB
# measured SIZE NAME SELECTOR
measured() {
  local dir=$work/$1
  rm -f "$work"/least-*
  for _ in 1 2 3; do
    run_once check "$QUERIER" check "$dir"
    run_once audit "$AUDITOR" --selector "$3" "$dir" <"$work/reply"
  done
  awk -v s="$1" -v n="$2" -v f="$(bytes_of "$dir")" -v r="$(wc -c <"$work/reply")" \
    -v c="$(least check)" -v d="$(processors check)" -v a="$(least audit)" -v b="$(processors audit)" \
    -v p="$(peak audit)" 'BEGIN {
    printf "%-12s %-5s %8.1f %8.1f %7.2fs %7.2fs %6.2f %8.2fs %8.2fs %8.1f %8.1f\n", s, n, f / 1e6, r / 1e6,
      c / 1e6, a / 1e6, a / c, d, b, p * 1024 / 1e6, (2 * f + 8 * r) / 1e6 }'
}
walked() {
  echo '{"parts":[],"rows":[]}' >"$work/reply"
  measured "$1" walk '{dc="none"}'
}
selected() {
  "$QUERIER" select "$3" "$work/$1" >"$work/reply"
  measured "$1" "$2" "$3"
}
one='metric_3{instance="host-00500:9100"}'
for size in 100000x60 10000x120 25000x1 50000x1 100000x1; do
  make_block "$size"
  walked "$size"
  case $size in
    100000x60) selected "$size" one "$one" ;;
    10000x120) selected "$size" all '{dc="main"}' ;;
    *) selected "$size" none '{dc="none"}' && selected "$size" all '{dc="main"}' ;;
  esac
  rm -r "${work:?}/$size"
done
