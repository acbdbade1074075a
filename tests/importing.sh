#!/usr/bin/env bash
# importing: gives texts to `promtool tsdb create-blocks-from openmetrics`, and the blocks that it writes to
# blocktool. What `promtool tsdb dump` prints of the inputs must be what stands in the outputs, sample for
# sample, as tests/read_block.py reads their bytes; the auditor must find them sound. So must the blocks of a
# server that for a minute scrapes itself and the querier. Then each bit of a small block is flipped, and each
# time it must be refused or give the same.
#
# It needs promtool and prometheus (Debian: prometheus), curl and python3; if a python3 has the reference
# parser of OpenMetrics (Debian: python3-prometheus-client), it reads what blocktool writes too. BLOCKTOOL,
# QUERIER and AUDITOR name programs that are built; without BLOCKTOOL it is built where it stands, and without
# the other two their part is left out. LARGE=1 adds 10,000 series and 100,000. Exit status 0 if all is as
# wanted and enough was compared.
set -eu
. "$(dirname "$0")/lib.sh"
needs promtool curl python3
find_programs blocktool
named querier || QUERIER=
named auditor || AUDITOR=
compared=0
tell() { fails "FAILED: $1"; }
read_block() { python3 "$top/tests/read_block.py" "$@"; }
last_line() { tail -n 1 "$work/told"; }

# same NAME WORD..: what read_block compares must be the same
same() {
  if read_block "${@:2}" >"$work/same" 2>&1; then
    echo "$1: $(cat "$work/same")"
    compared=$((compared + $(awk '{ print $3 }' "$work/same")))
  else
    tail -n 2 "$work/same"
    tell "$1: not the same"
  fi
}

# converts BLOCK.. and compares the outputs with what promtool says of the directories TSDB..
# convert NAME DIGITS TSDB.. -- BLOCK..; REST says what is done with other values, if not drop
convert() {
  local name=$1 digits=$2 rest=${REST:-drop} tsdbs=() out
  shift 2
  while [ "$1" != -- ]; do tsdbs+=("$1"); shift; done
  shift
  out=$work/out-$name-$digits-$rest
  "$BLOCKTOOL" from-prometheus --decimals "$digits" --rest "$rest" --into "$out" "$@" >"$work/told" 2>&1 ||
    tell "$name: blocktool ended with $?: $(last_line)"
  echo "$name, $digits digits: $(last_line)"
  same "$name, $digits digits" compare "$digits" "$rest" "$work/told" "${tsdbs[@]}" -- "$out"/0*
  if [ -n "$QUERIER" ] && [ -n "$AUDITOR" ]; then
    "$QUERIER" select '{__name__!=""}' "$out"/0* |
      "$AUDITOR" --selector '{__name__!=""}' "$out"/0* >"$work/said" ||
      tell "$name: the auditor ended with $?"
  fi
}

# makes blocks of a text: they must hold what it writes
# text NAME DIGITS; REST says what is done with other values, if not drop
text() {
  local name=$1 digits=$2 rest=${REST:-drop} from=$work/$1.om out
  out=$work/text-$name-$digits-$rest
  "$BLOCKTOOL" from-openmetrics --decimals "$digits" --rest "$rest" --into "$out" "$from" \
    >"$work/told" 2>&1 ||
    tell "$name: from-openmetrics ended with $?: $(last_line)"
  same "$name, $digits digits" text "$digits" "$rest" "$work/told" "$from" -- "$out"/0*
}

# the output of promtool's block as text, and back: the same files, and the same samples in promtool
# back NAME DIGITS
back() {
  local name=$1 digits=$2 out=$work/out-$1-$2-drop back=$work/back-$1-$2
  if [ -n "$QUERIER" ]; then
    "$QUERIER" select '{__name__!=""}' "$out"/0* >"$work/reply"
  else
    read_block reply "$out"/0* >"$work/reply"
  fi
  "$BLOCKTOOL" to-openmetrics --decimals "$digits" "$work/reply" >"$back.om" ||
    tell "$name: to-openmetrics ended with $?"
  "$BLOCKTOOL" from-openmetrics --decimals "$digits" --into "$back" <"$back.om" >"$work/told" 2>&1 ||
    tell "$name: its own text is refused: $(last_line)"
  diff -r "$out" "$back" >"$work/same" || tell "$name, $digits digits: other blocks out of its own text"
  "$BLOCKTOOL" from-rows --decimals "$digits" --into "$back-rows" "$work/reply" >"$work/told" ||
    tell "$name: from-rows ended with $?"
  diff -r "$out" "$back-rows" >"$work/same" || tell "$name, $digits digits: other blocks out of its rows"
  promtool tsdb create-blocks-from openmetrics "$back.om" "$back-tsdb" >/dev/null
  read_block same "$digits" "$back-tsdb" -- "$out"/0* >"$work/same" 2>&1 ||
    tell "$name, $digits digits: promtool reads other samples: $(tail -n 1 "$work/same")"
  echo "$name, $digits digits: $(tail -n 1 "$work/same")"
}

# makes blocks of doubles of promtool's block, and of a text if there is one: both must hold what promtool
# has, bit for bit, and as text again it must be what promtool prints
# doubles NAME TSDB BLOCK..
doubles() {
  local name=$1 tsdb=$2 from=$work/$1.om out=$work/doubles-$1
  shift 2
  "$BLOCKTOOL" from-prometheus --values doubles --into "$out" "$@" >"$work/told" 2>"$work/passed" ||
    tell "$name: doubles of promtool's block: $(last_line)"
  same "$name, doubles" doubles "$work/told" "$tsdb" -- "$out"/0*
  [ -e "$from" ] || return 0
  "$BLOCKTOOL" from-openmetrics --values doubles --into "$out-text" "$from" >"$work/told" 2>&1 ||
    tell "$name: doubles of a text: $(last_line)"
  same "$name, doubles of its text" doubles "$work/told" "$tsdb" -- "$out-text"/0*
  read_block reply "$out"/0* >"$work/reply"
  "$BLOCKTOOL" to-openmetrics --values doubles "$work/reply" >"$out.om" ||
    tell "$name: doubles as text ended with $?"
  same "$name, doubles as text" shown "$tsdb" "$out.om"
  "$BLOCKTOOL" from-openmetrics --values doubles --into "$out-back" "$out.om" >"$work/told" 2>&1 ||
    tell "$name: its own text of doubles is refused: $(last_line)"
  diff -r "$out" "$out-back" >"$work/same" || tell "$name: other doubles out of its own text"
  "$BLOCKTOOL" from-rows --values doubles --into "$out-rows" "$work/reply" >"$work/told" ||
    tell "$name: from-rows of doubles ended with $?"
  diff -r "$out" "$out-rows" >"$work/same" || tell "$name: other doubles out of its rows"
  "$BLOCKTOOL" rewrite --into "$out-anew" "$out"/0* >"$work/told" || tell "$name: rewrite of doubles: $?"
  grep -q '"values":"doubles"' "$out-anew"/0001/meta.json || tell "$name: rewrite forgets the meaning"
}

# makes NAME COMMAND WORD..: blocktool makes $work/NAME-out of standard input or a file
makes() {
  "$BLOCKTOOL" "$2" --into "$work/$1-out" "${@:3}" >"$work/told" || tell "$1: $2 ended with $?: $(last_line)"
}

# says NAME PATTERN: a line of blocktool begins so
says() {
  grep -q "^$2" "$work/told" || tell "$1: $(cat "$work/told")"
}

# has NAME ROWS: $work/NAME-out has these rows and no others
has() {
  echo "{\"parts\":[],\"rows\":[$2]}" >"$work/$1-rows"
  read_block reply "$work/$1-out"/0* | cmp - "$work/$1-rows" || tell "$1: other rows"
}

# a line that is wrong is refused: CODE PLACE TEXT
refuse() {
  ! printf "$3" | "$BLOCKTOOL" from-openmetrics --into "$work/wrong" >"$work/told" 2>&1 ||
    tell "not refused: $3"
  grep -qx "refused $1[: ].*(standard input, $2)" "$work/told" ||
    tell "$3: $(cat "$work/told"), and not $1 at $2"
  [ ! -e "$work/wrong" ] || tell "something was made of a text that is refused: $3"
}

# what a parser of others says of a text in FORMAT, openmetrics or prometheus: the label sets, one a line; it
# refuses a metric whose lines stand apart. Status 3 if there is none
# reference FORMAT FILE
reference() {
  local python
  for python in python3 /usr/bin/python3; do
    "$python" -c 'import prometheus_client' 2>"$work/none" || continue
    "$python" -c '
import json, sys
from prometheus_client import parser
from prometheus_client.openmetrics import parser as open_parser
read = {"openmetrics": open_parser, "prometheus": parser}[sys.argv[1]].text_string_to_metric_families
for family in read(open(sys.argv[2]).read()):
    for sample in family.samples:
        print(json.dumps({"__name__": sample.name, **sample.labels}, sort_keys=True))' "$@"
    return
  done
  echo "no python3 has prometheus_client"
  return 3
}

read_block texts "$work" ${LARGE:+large}
for text in "$work"/*.om; do
  name=$(basename "$text" .om)
  [ "$name" != far ] || continue # promtool reads no number of 2^1024 and more
  promtool tsdb create-blocks-from openmetrics "$text" "$work/$name" >/dev/null
  doubles "$name" "$work/$name" "$work/$name"/0*
  [ "$name" != anything ] || continue
  for digits in 0 9; do
    convert "$name" "$digits" "$work/$name" -- "$work/$name"/0*
    text "$name" "$digits"
    back "$name" "$digits"
  done
done
# lines of one series at one time, in any order: the later stands
cat "$work/whole.om" "$work/over.om" | sed '/# EOF/d' |
  sort -R --random-source="$work/whole.om" >"$work/mixed"
(cat "$work/mixed"; echo '# EOF') >"$work/mixed.om"
makes mixed from-openmetrics "$work/mixed.om"
read_block text 0 drop "$work/told" "$work/mixed.om" -- "$work/mixed-out"/0* ||
  tell "mixed: not what the text writes"
# the older text: its times are in milliseconds, and a line may be empty or any comment
cat >"$work/older" <<'END'

# any words
up{a="b\\n\""} 7 1700006400250
up{a="b\\n\""} 8 1700006400251
END
makes older from-openmetrics --format prometheus "$work/older"
has older '{"labels":{"__name__":"up","a":"b\\n\""},"samples":[[1700006400250,7],[1700006400251,8]]}'
# what promtool accepts of it: blanks, a comma behind the last label, numbers of other forms; also without a
# last line feed
printf '%s\n' ' up{ a = "b" ,c="d", }  7.	1700006400250' '	up 2.5e1 1700006400251' 'up{ } .5 1700006400252' \
  'up NaN 1700006400253' 'up +infinity 1700006400254' 'up -INF 1700006400255' '  ' >"$work/forms"
promtool check metrics <"$work/forms" >"$work/linted" 2>&1 || [ "$?" = 3 ] ||
  tell "forms: promtool says $(head -n 1 "$work/linted")"
printf 'up 1 1700006400256' >>"$work/forms"
makes forms from-openmetrics --format prometheus --decimals 1 --rest drop "$work/forms"
says forms 'read 7 samples: 4 kept, 0 stale, 3 of other values,'
forms='{"labels":{"__name__":"up"},"samples":[[1700006400251,250],[1700006400252,5],[1700006400256,10]]}'
has forms "$forms"',{"labels":{"__name__":"up","a":"b","c":"d"},"samples":[[1700006400250,70]]}'
# a backslash that begins no escape is itself, in both formats
printf '%s\n' 'up{a="\d+\q\\n",b="\n\"\ "} 7 1' '# EOF' >"$work/slashes.om"
printf '%s\n' 'up{a="\d+\q\\n",b="\n\"\ "} 7 1000' >"$work/slashes.prometheus"
echo '{"__name__": "up", "a": "\\d+\\q\\n", "b": "\n\"\\ "}' >"$work/slashes-labels"
slashes='{"labels":{"__name__":"up","a":"\\d+\\q\\n","b":"\n\"\\ "},"samples":[[1000,7]]}'
for format in openmetrics prometheus; do
  text=$work/slashes.om
  [ "$format" = openmetrics ] || text=$work/slashes.prometheus
  makes "slashes-$format" from-openmetrics --format "$format" "$text"
  has "slashes-$format" "$slashes"
  status=0
  reference "$format" "$text" >"$work/told" || status=$?
  [ "$status" = 3 ] || cmp "$work/told" "$work/slashes-labels" ||
    tell "slashes, $format: the reference parser has other labels"
done
promtool tsdb create-blocks-from openmetrics "$work/slashes.om" "$work/slashes-tsdb" >/dev/null
mkdir -p "$work/slashes-tsdb/wal"
promtool tsdb dump "$work/slashes-tsdb" | grep -qF 'a="\\d+\\q\\n", b="\n\"\\ "' ||
  tell "slashes: promtool has other labels"
# rows that come back to a metric, since a capital sorts before __name__: the lines of a metric stand together
apart='{"labels":{"Env":"a","__name__":"x"},"samples":[[1000,1],[2000,4]]}'
apart+=',{"labels":{"Env":"b","__name__":"y"},"samples":[[1000,2]]}'
apart+=',{"labels":{"Env":"c","__name__":"x"},"samples":[[1000,3]]}'
apart+=',{"labels":{"__name__":"y"},"samples":[[1000,5]]}'
echo "{\"parts\":[],\"rows\":[$apart]}" >"$work/apart"
printf '%s\n' 'x{Env="a"} 1 1.000' 'x{Env="a"} 4 2.000' 'x{Env="c"} 3 1.000' 'y{Env="b"} 2 1.000' \
  'y 5 1.000' '# EOF' >"$work/apart-text"
"$BLOCKTOOL" to-openmetrics "$work/apart" >"$work/apart.om" || tell "apart: to-openmetrics ended with $?"
cmp "$work/apart.om" "$work/apart-text" || tell "apart: another text"
makes apart from-openmetrics "$work/apart.om"
has apart "$apart"
status=0
reference openmetrics "$work/apart.om" >"$work/told" 2>&1 || status=$?
[ "$status" = 0 ] || [ "$status" = 3 ] || tell "apart: the reference parser refuses it: $(last_line)"
# the same lines in the order of the rows it refuses, or it is no judge
if [ "$status" = 0 ]; then
  printf '%s\n' 'x{Env="a"} 1 1.000' 'y{Env="b"} 2 1.000' 'x{Env="c"} 3 1.000' '# EOF' >"$work/split.om"
  ! reference openmetrics "$work/split.om" >"$work/told" 2>&1 ||
    tell "the reference parser takes lines of a metric that stand apart"
fi
promtool tsdb create-blocks-from openmetrics "$work/apart.om" "$work/apart-tsdb" >/dev/null ||
  tell "apart: promtool refuses it"
# a list of rows, as the body of a write: the later stands, in any order
list='{"labels":{"b":"2"},"samples":[[20,1],[10,2]]},{"labels":{"a":"1"},"samples":[[5,7]]}'
makes list from-rows <<<"[$list"',{"labels":{"b":"2"},"samples":[[20,3]]}]'
says list 'read 4 samples: 3 kept, 0 stale, 0 of other values, 0 deleted, 1 hidden, 0 outside;'
has list '{"labels":{"a":"1"},"samples":[[5,7]]},{"labels":{"b":"2"},"samples":[[10,2],[20,3]]}'
for text in '[],"rows":[]' '{"rows":[]}' '[{"labels":{"a":"1"}}]'; do
  ! echo "$text" | "$BLOCKTOOL" from-rows --into "$work/wrong" >"$work/told" 2>&1 ||
    tell "taken for rows: $text"
  grep -qx 'refused: bad reply' "$work/told" || tell "$text: $(cat "$work/told")"
done
refuse P12 'line 2, column 1' 'up 1 1\n'
refuse P12 'line 2, column 1' 'up 1 1\n# EOF\nup 1 2\n# EOF\n'
refuse P8 'line 1, column 6' 'up 1 1.0005\n# EOF\n'
refuse P8 'line 2, column 5' 'up 1 1\nup 1\n# EOF\n'
refuse P7 'line 1, column 4' 'up x 1\n# EOF\n'
refuse P5 'line 1, column 6' 'up{a=x} 1 1\n# EOF\n'
refuse P5 'line 1, column 9' 'up{a="x\\\n# EOF\n'
refuse P5 'line 1, column 15' 'up{a="x\\"} 1 1\n# EOF\n'
refuse L2 'line 1, column 1' 'up{a="x",a="y"} 1 1\n# EOF\n'
refuse P11 'line 1, column 6' 'up 1 4611686018427387.904\n# EOF\n'
refuse P1 'line 1, column 1' '\nup 1 1\n# EOF\n'
refuse P10 'line 1, column 1' 'up{a="\377"} 1 1\n# EOF\n'
refuse P7 'line 1, column 4' 'up . 1\n# EOF\n'
refuse P4 'line 1, column 10' 'up{a="x",} 1 1\n# EOF\n'
refuse value 'line 2, column 4' 'up 1 1\nup 1.5 2\n# EOF\n'
# other values rounded, a half to the even number
for name in odd fractions; do
  for digits in 0 2 9; do
    REST=round convert "$name" "$digits" "$work/$name" -- "$work/$name"/0*
    REST=round text "$name" "$digits"
  done
done
# of a text by its digits, with no double between
for digits in 0 1 9; do
  text far "$digits"
  REST=round text far "$digits"
done
# a value that is rounded hides an earlier one, and is hidden by a later one; what cannot be rounded hides
# nothing
printf '%s\n' 'up 1 1' 'up 2.5 1' 'up 7.5 2' 'up 9 2' 'up 3 3' 'up NaN 3' '# EOF' >"$work/hiding.om"
makes hiding from-openmetrics --rest round "$work/hiding.om"
says hiding 'read 6 samples: 3 kept, 0 stale, 1 of other values, 0 deleted, 2 hidden, 0 outside;.* 2 rounded$'
has hiding '{"labels":{"__name__":"up"},"samples":[[1000,2],[2000,9],[3000,3]]}'
# only what lies in the range is counted as rounded
makes late from-openmetrics --rest round --from 2000 "$work/hiding.om"
says late 'read 6 samples: 2 kept, 0 stale, 1 of other values, 0 deleted, 1 hidden, 2 outside;.* 1 rounded$'
# exemplars are counted and left
printf '%s\n' 'up 1 1 # {trace="x"} 0.5' 'up 2 2' 'up 3 3 # {} 1 1.5' '# EOF' >"$work/exemplars.om"
makes exemplars from-openmetrics "$work/exemplars.om"
says exemplars 'read 3 samples: 3 kept, .*; 0 of histograms, 2 exemplars left;'
# a folder that holds blocks, and other directories, which are told
mkdir -p "$work/gaps/wal" "$work/gaps/01ARZ3NDEKTSV4RRFFQ69G5FAV.tmp-for-deletion"
convert gaps-folder 0 "$work/gaps" -- "$work/gaps"
grep -q 'wal is no block' "$work/told" || tell "a directory that is no block is not told"
# blocks of one folder are taken in the order of their times: `over` begins later
mkdir "$work/both"; cp -r "$work/whole"/0* "$work/over"/0* "$work/both"
convert both-folder 0 "$work/whole" "$work/over" -- "$work/both"
# of two inputs the later wins, and what it hides is told; the order matters
convert whole-over 0 "$work/whole" "$work/over" -- "$work/whole"/0* "$work/over"/0*
convert over-whole 0 "$work/over" "$work/whole" -- "$work/over"/0* "$work/whole"/0*
# deletions are carried out
cp -r "$work/whole" "$work/deleted"
for block in "$work/deleted"/0*; do read_block delete "$block"; done
convert deleted 0 "$work/deleted" -- "$work/deleted"/0*
# the blocks of a server that for a minute scrapes itself, and a querier to which a sample is written each
# second
if command -v prometheus >/dev/null; then
  read -r port watch <<<"$(free_ports 2)"
  prometheus=127.0.0.1:$port
  [ -z "$QUERIER" ] || serve scraped --status-port "$watch"
  cat >"$work/server.yml" <<END
global:
  scrape_interval: 1s
scrape_configs:
- job_name: self
  static_configs:
  - targets: ["$prometheus"]
- job_name: querier
  static_configs:
  - targets: ["127.0.0.1:$watch"]
END
  prometheus --config.file "$work/server.yml" --storage.tsdb.path "$work/server" \
    --web.listen-address "$prometheus" --web.enable-admin-api >"$work/server.log" 2>&1 &
  running+=("$!")
  for second in $(seq 60); do
    sleep 1
    row="{\"labels\":{\"a\":\"b\"},\"samples\":[[$second,1]]}"
    [ -z "$QUERIER" ] || post write "[$row]" >"$work/written" ||
      tell "second $second: the querier does not reply"
  done
  snapshot=$(curl -sf -X POST "$prometheus/api/v1/admin/tsdb/snapshot" |
    sed 's/.*"name":"\([^"]*\)".*/\1/') || tell "no snapshot of the server"
  stop "${running[@]}"
  snapshot=$work/server/snapshots/$snapshot
  convert server 9 "$snapshot" -- "$snapshot"/0*
  REST=round convert server-folder 9 "$snapshot" -- "$snapshot"
  doubles server "$snapshot" "$snapshot"
  for job in self ${QUERIER:+querier}; do
    scrapes=$(promtool tsdb dump --match="up{job=\"$job\"}" "$snapshot" | grep -c ' 1 ') || true
    echo "$job: $scrapes scrapes"
    [ "$scrapes" -ge 50 ] || tell "$job: only $scrapes scrapes in a minute"
  done
else
  tell "there is no prometheus"
fi
# a fraction is refused unless it is asked for otherwise, and nothing is made that could be taken for a block
! "$BLOCKTOOL" from-prometheus --into "$work/refused" "$work/odd"/0* >"$work/told" 2>&1 ||
  tell "a fraction was not refused"
cat "$work/told"
[ -z "$(ls -A "$work/refused" 2>/dev/null)" ] || tell "something stands in the directory of a refused block"
# with doubles no other option of values may stand; whole numbers become doubles up to 2^53
for option in '--decimals 1' '--rest drop' '--stale drop'; do
  status=0
  "$BLOCKTOOL" from-prometheus --values doubles $option --into "$work/refused" "$work/odd"/0* \
    >"$work/told" 2>&1 || status=$?
  [ "$status" = 2 ] || tell "$option beside doubles: status $status"
done
printf '%s\n' 'up 9007199254740992 1' 'up -9007199254740992 2' 'up 0 3' '# EOF' >"$work/small.om"
printf '%s\n' 'up 1 1' 'up 9007199254740993 2' '# EOF' >"$work/large.om"
makes small from-openmetrics "$work/small.om"
makes large from-openmetrics "$work/large.om"
"$BLOCKTOOL" rewrite --values doubles --into "$work/small-doubles" "$work/small-out"/0* >"$work/told" ||
  tell "small whole numbers became no doubles: $(last_line)"
grep -q '"values":"doubles"' "$work/small-doubles/0001/meta.json" || tell "they are not said to be doubles"
cmp "$work/small-doubles/0001/chunks/000001" "$work/small-out/0001/chunks/000001" ||
  tell "a small whole number does not stand for itself"
! "$BLOCKTOOL" rewrite --values doubles --into "$work/refused" "$work/large-out"/0* >"$work/told" 2>&1 ||
  tell "2^53 + 1 became a double"
grep -q '^refused V4: 9007199254740993 at 2000 ' "$work/told" || tell "V4: $(cat "$work/told")"
! "$BLOCKTOOL" rewrite --into "$work/refused" "$work/small-doubles"/0* "$work/small-out"/0* \
  >"$work/told" 2>&1 || tell "values of two meanings were mixed"
grep -q '^refused V5: ' "$work/told" || tell "V5: $(cat "$work/told")"
# a directory with something in it is left alone
! "$BLOCKTOOL" from-prometheus --into "$work/out-whole-0-drop" "$work/whole"/0* 2>"$work/told" ||
  tell "a full directory was taken"
# a block without its segment cannot be read
set -- "$work/odd"/0*
cp -r "$1" "$work/bare"
rm "$work/bare/chunks/000001"
status=0
"$BLOCKTOOL" from-prometheus --into "$work/bare-out" "$work/bare" 2>"$work/told" || status=$?
[ "$status" = 3 ] || tell "a block without its segment: status $status"
grep -qx "cannot read $work/bare/chunks/000001" "$work/told" ||
  tell "a block without its segment: $(cat "$work/told")"
# each bit of a small block flipped
read_block change "$BLOCKTOOL" "$work/odd" "$work" || tell "a flipped bit was not told"
[ "$compared" -ge 550000 ] || tell "only $compared samples were compared"
echo "$compared samples compared, $failed failed"
[ "$failed" = 0 ]
