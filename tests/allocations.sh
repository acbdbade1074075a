#!/usr/bin/env bash
# allocations: refuses each allocation in turn, of the opening of an index, over the commits, a deletion and
# the cuts of a store, over the way of the demo, from the two batches to the line of JSON, over that of a
# selection from two blocks, by its threads, over the way of one connection after another, in a session of
# writes, a cut, a deletion and queries, and of the auditor's walk, its audits and a run of it. Then it
# refuses each thread of a search. It proves and builds the tests of two crates, and runs some of them once
# for each allocation that they ask for: each makes the refused call again and looks at the answers, but for
# those that run a program. It needs a C compiler (CC). Exit status 0 if each of these runs passed.
set -eu
. "$(dirname "$0")/lib.sh"
for mode in ALLOCATIONS THREADS; do
  "${CC:-cc}" -O2 -shared -fPIC "-DREFUSE_$mode" -o "$work/$mode.so" "$top/tests/refuse.c"
done
# passes CRATE NAME WHAT [NUMBER]: runs a test, of which each thread or the allocation of a number is refused
passes() {
  REFUSE=${4:-0} LD_PRELOAD=$work/$3.so "$top/crates/$1/out/$1_tests" "$2" >"$work/told" 2>&1 9>"$work/asked"
}
# refuse_in CRATE NAME..: refuses each allocation of these tests in turn
refuse_in() {
  local crate=$1 name asked n
  shift
  (cd "$top/crates/$crate" && "${RT:-rt}" test >"$work/built" 2>&1) || {
    tail -n 20 "$work/built" >&2
    exit 1
  }
  for name in "$@"; do
    passes "$crate" "$name" ALLOCATIONS || {
      tail -n 20 "$work/told" >&2
      exit 1
    }
    asked=$(cat "$work/asked")
    [ "${asked:-0}" -gt 0 ] || {
      fails "$name: no allocation was counted"
      continue
    }
    for ((n = 1; n <= asked; n++)); do
      passes "$crate" "$name" ALLOCATIONS "$n" ||
        fails "$name: allocation $n refused: $(tail -n 1 "$work/told")"
    done
    echo "$name: $asked allocations refused in turn"
    count=$((count + 1))
  done
}
refuse_in file_tests \
  indexes::an_open_refused_memory_answers_when_made_again
refuse_in store_tests \
  changes::refused_memory::changes_refused_memory_change_nothing_and_are_made_when_asked_again \
  serving::connections::a_connection_refused_memory_is_served_when_made_again \
  serving::searches::an_answer_refused_memory_is_the_same_when_asked_for_again \
  subcommands::refusals::a_call_refused_memory_changes_nothing_and_answers_when_made_again \
  subcommands::refusals::a_program_refused_memory_says_so \
  subcommands::refusals::a_selection_refused_memory_says_so
refuse_in world_tests \
  refused_memory::a_walk_refused_memory_answers_when_made_again \
  refused_memory::audits_refused_memory_answer_when_made_again \
  runs::a_program_refused_memory_says_so
# If each thread is refused, the calling one searches all parts, and the text is the same.
name=serving::searches::workers_answer_as_one_thread_does_over_63_blocks_and_over_a_block_and_a_head
if passes store_tests "$name" THREADS && [ "$(cat "$work/asked")" -gt 0 ]; then
  echo "$name: $(cat "$work/asked") threads refused"
  count=$((count + 1))
else
  fails "$name, each thread refused: $(tail -n 1 "$work/told")"
fi
concludes 11 tests
