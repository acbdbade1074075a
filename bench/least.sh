# Sourced by the scripts beside it, after `set -eu`: what they share with those of tests/, and runs that take
# turns, of which the least time and the greatest memory are kept.
#
# shellcheck shell=bash
. "$(dirname "${BASH_SOURCE[0]}")/../tests/lib.sh"

# run_once NAME WORD..: one more run under a name; its answer is in the folder, in `told-NAME`.
run_once() {
  local name=$1 start end
  shift
  start=${EPOCHREALTIME/./}
  /usr/bin/time -f '%M %U %S' -o "$work/cost" "$@" >"$work/told-$name" 2>"$work/err" || {
    cat "$work/err" >&2
    exit 1
  }
  end=${EPOCHREALTIME/./}
  echo "$((end - start)) $(tail -n 1 "$work/cost")" >>"$work/least-$name"
}

# least NAME: the least microseconds of the runs under a name.
least() {
  sort -n "$work/least-$1" | head -n 1 | cut -d' ' -f1
}

# processors NAME: the processor seconds of the run that took the least time.
processors() {
  sort -n "$work/least-$1" | awk 'NR == 1 { print $3 + $4 }'
}

# peak NAME: the greatest KiB of memory of the runs under a name.
peak() {
  cut -d' ' -f2 "$work/least-$1" | sort -n | tail -n 1
}

# files_of DIR: the files of a block, a line each.
files_of() {
  local name
  for name in meta.json index chunks/000001 tombstones; do echo "$1/$name"; done
}

# bytes_of DIR: how many bytes these have.
bytes_of() {
  files_of "$1" | xargs -d '\n' cat | wc -c
}
