#!/usr/bin/env bash
# audits: pipes what the program `querier` tells through the program `auditor`, over the worked block, over
# that block with lists that lie, and over blocks of a generator that shares no code with the crates
# (bench/make_block.rs, needs rustc), and over the replies of a server that takes writes meanwhile (needs
# curl). Right answers have no flaw; answers that are changed afterwards have the flaw that is named. QUERIER
# and AUDITOR name programs that are built already; else they are built where they stand. Exit status 0 if
# each line is as it should be.
set -eu
. "$(dirname "$0")/lib.sh"
needs "${RUSTC:-rustc}" curl
find_programs querier auditor

# audited STATUS LINES REPLY WORD..: the lines are joined by ", "
audited() {
  local status=0 told
  told=$("$AUDITOR" "${@:4}" <"$3" 2>&1) || status=$?
  told=${told//$'\n'/, }
  count=$((count + 1))
  if [ "$status" != "$1" ] || [ "$told" != "$2" ]; then
    fails "auditor ${*:4}: status $status, $told; wanted $1, $2"
  fi
}

# changed REPLY FROM TO: another reply, each FROM of which is TO
changed() {
  sed "s/$2/$3/g" "$1" >"$work/changed"
  ! cmp -s "$1" "$work/changed" || fails "no $2 in a reply"
}

# put FILE PLACE HEX..: these bytes at a place of a file
put() {
  printf '%b' "$(printf '\\x%s' "${@:3}")" | dd of="$1" bs=1 seek="$2" conv=notrunc status=none
}

# The worked block of docs/FORMATS.md.
cp -r "$top/examples/good" "$work/data"

up_a='up{job="a"}'
valid='block 0: valid, head: skipped, rows: valid'
"$QUERIER" select --from=0 --to=100 "$up_a" "$work/data" >"$work/reply"
asked=(--selector "$up_a" --from=0 --to=100)
audited 0 "$valid" "$work/reply" "${asked[@]}" "$work/data"
changed "$work/reply" '"separators":\[4,' '"separators":['
audited 1 'block 0: F4, head: skipped, rows: valid' "$work/changed" "${asked[@]}" "$work/data"
split='"from":4,"until":5,"verdict":0},{"from":5,"until":6,"verdict":0}'
changed "$work/reply" '"from":4,"until":6,"verdict":0}' "$split"
audited 1 'block 0: F4, head: skipped, rows: valid' "$work/changed" "${asked[@]}" "$work/data"
cp "$work/changed" "$work/split"
changed "$work/split" '\[4,6,7,8\]' '[4,5,6,7,8]'
audited 1 'block 0: F5 at 0, head: skipped, rows: valid' "$work/changed" "${asked[@]}" "$work/data"
changed "$work/reply" '{"intervals":.*"part":"block 0".*"separators":\[4,6,7,8\]}' \
  '{"part":"block 0","skipped":true}'
audited 1 'block 0: F9, head: skipped, rows: F10' "$work/changed" "${asked[@]}" "$work/data"
changed "$work/reply" '"verdict":0' '"verdict":1'
audited 1 'block 0: F3, head: skipped, rows: valid' "$work/changed" "${asked[@]}" "$work/data"
changed "$work/reply" '"verdict":0' '"verdict":"none"'
audited 1 'block 0: F8, head: skipped, rows: valid' "$work/changed" "${asked[@]}" "$work/data"
changed "$work/reply" '"verdict":0' '"verdict":"match"'
audited 1 'block 0: F2, head: skipped, rows: valid' "$work/changed" "${asked[@]}" "$work/data"
changed "$work/reply" '"verdict":1' '"verdict":2'
audited 1 'block 0: F7, head: skipped, rows: valid' "$work/changed" "${asked[@]}" "$work/data"
changed "$work/reply" '"until":4294967296' '"until":9'
audited 1 'block 0: F1, head: skipped, rows: valid' "$work/changed" "${asked[@]}" "$work/data"
changed "$work/reply" '\[10,6\]' '[10,7]'
audited 1 'block 0: F6, head: skipped, rows: valid' "$work/changed" "${asked[@]}" "$work/data"
"$QUERIER" select --from=20 --to=100 "$up_a" "$work/data" >"$work/reply"
audited 0 'block 0: skipped, head: skipped, rows: valid' "$work/reply" \
  --selector "$up_a" --from=20 --to=100 "$work/data"

# Lists that lie, their checksums right: 8 in place of 7 in the list of job="a", and the offset of another
# list for it.
cp -r "$top/examples/lying" "$work/other-list"
cp -r "$work/data" "$work/other-offset"
put "$work/other-offset/index" 365 A5 02
put "$work/other-offset/index" 386 B2 1F E4 F2
"$QUERIER" select --from=0 --to=100 "$up_a" "$work/data" >"$work/reply"
for lie in other-list other-offset; do
  audited 0 "$valid" "$work/reply" "${asked[@]}" "$work/$lie"
  wants "check of $lie" "$work/$lie: refused I14" "$("$QUERIER" check "$work/$lie" || true)"
done

# Blocks of another maker: what is selected of both has no flaw, and with one separator less it has.
compile make_block
make_block 300x7 "$work/a"
make_block 200x130 "$work/b"
both='block 0: valid, block 1: valid, head: skipped, rows: valid'
ranges=('--from=-4611686018427387904' '--from=1700006400000 --to=1700006430000' '--from=1700006460000')
selectors=(
  '{dc="main"}' '{dc="none"}' '{zone=""}' '{zone=~"a|b"}' '{zone!~".+"}' 'metric_3' 'metric_3{zone!="a"}'
  '{instance="host-00005:9100",code=~"4.*"}' '{__name__=~"metric_[0-4]",code="200",zone!=""}'
)
for range in "${ranges[@]}"; do
  for selector in "${selectors[@]}"; do
    # shellcheck disable=SC2086
    "$QUERIER" select $range "$selector" "$work/a" "$work/b" >"$work/reply"
    audited 0 "$both" "$work/reply" --selector "$selector" $range "$work/a" "$work/b"
    changed "$work/reply" '"separators":\[[0-9]*,\{0,1\}' '"separators":['
    audited 1 'block 0: F4, block 1: F4, head: skipped, rows: valid' "$work/changed" \
      --selector "$selector" $range "$work/a" "$work/b"
  done
done
"$QUERIER" select --from=1800000000000 metric_3 "$work/a" "$work/b" >"$work/reply"
audited 0 'block 0: skipped, block 1: skipped, head: skipped, rows: valid' "$work/reply" \
  --selector metric_3 --from=1800000000000 "$work/a" "$work/b"

# Replies of a server that takes writes meanwhile: what it tells of the block is sound, the head is not
# judged, and the rows of all are those of its parts. After a cut the new block has no directory; after a
# deletion the block's files do not say what the store does.
ask() {
  curl -s -G -d from="$1" -d to="$2" --data-urlencode "selector=$up_a" "$at/select" >"$work/reply"
}
serve asked --workers 4 "$work/data"
for n in $(seq 21 220); do
  post write "[{\"labels\":{\"__name__\":\"up\",\"job\":\"a\"},\"samples\":[[$n,$n]]}]"
done >"$work/wrote" &
writer=$!
for _ in $(seq 40); do
  ask 0 1000
  audited 0 "$valid" "$work/reply" --selector "$up_a" --from=0 --to=1000 "$work/data"
done
wait "$writer"
wants "writes that were accepted" 200 "$(grep -o '{"ok":true}' "$work/wrote" | wc -l)"
ask 20 1000
wants "samples of the head" 200 \
  "$(sed 's/.*"rows":/"rows":/' "$work/reply" | grep -o '\[[0-9]*,[0-9]*\]' | wc -l)"
audited 0 'block 0: skipped, head: skipped, rows: valid' "$work/reply" \
  --selector "$up_a" --from=20 --to=1000 "$work/data"
wants "a cut" '{"ok":true}' "$(post cut '{"at":100}')"
ask 0 1000
audited 0 'block 0: valid, block 1: skipped, head: skipped, rows: valid' "$work/reply" \
  --selector "$up_a" --from=0 --to=1000 "$work/data"
audited 1 'block 0: valid, block 1: F1, head: skipped, rows: valid' "$work/reply" \
  --selector "$up_a" --from=0 --to=1000 "$work/data" "$work/data"
wants "a deletion" '{"ok":true}' "$(post delete '{"from":0,"selector":"{zone=\"x\"}","to":15}')"
ask 0 1000
audited 1 'block 0: F8, block 1: skipped, head: skipped, rows: valid' "$work/reply" \
  --selector "$up_a" --from=0 --to=1000 "$work/data"
concludes 119 audits
