#!/usr/bin/env bash
# scraping: asks the status port of `querier serve` with curl, has promtool look at its metrics, and has a
# real Prometheus scrape it and queries what that has. It needs prometheus, promtool, curl and python3.
# QUERIER names a program that is built already; else it is built where it stands. Exit status 0 if each reply
# is as wanted.
set -eu
. "$(dirname "$0")/lib.sh"
needs prometheus promtool curl python3
find_programs querier
# the status port of the server that is asked
watch=127.0.0.1:$(free_ports 1)
# while a block is read from a pipe that nobody writes, the blocks are not open
mkdir "$work/slow"
mkfifo "$work/slow/meta.json"
"$QUERIER" serve --port 0 --status-port "${watch#*:}" "$work/slow" >"$work/told" 2>/dev/null &
slow=$!
running+=("$slow")
up=no
for _ in $(seq 100); do
  if curl -s -o /dev/null "$watch/healthy"; then up=yes; break; fi
  sleep 0.1
done
wants "it listens before the blocks are open" yes "$up"
wants "ready before the blocks are open" 503 "$(status "$watch/ready")"
wants "healthy before the blocks are open" 200 "$(status "$watch/healthy")"
wants "metrics before the blocks are open" 0 "$(curl -s "$watch/metrics" | sed -n 's/^fuzzledge_blocks //p')"
stop "$slow"

watch=127.0.0.1:$(free_ports 1)
wants "a worker more than there is room for" "1 refused O2" \
  "$(ended "$QUERIER" serve --port 0 --workers 64 --status-port "${watch#*:}")"
serve asked --workers 3 --status-port "${watch#*:}" "$top/examples/good"
wants "a status port that is taken" "3 cannot listen on $watch" \
  "$(ended "$QUERIER" serve --port 0 --status-port "${watch#*:}")"
wants "ready" "ready 200" "$(curl -s -w '%{http_code}' "$watch/ready" | paste -sd ' ')"
wants "another path" 404 "$(status "$watch/select")"
wants "another method" 405 "$(status -d x "$watch/metrics")"
wants "what another method is told" "Allow: GET, HEAD" \
  "$(curl -s -D - -o /dev/null -d x "$watch/metrics" | grep '^Allow:' | tr -d '\r')"
wants "a query behind the path" 200 "$(status "$watch/metrics?x=1")"
# raw BYTES: the lines that the status port replies to these bytes
raw() {
  exec 3<>"/dev/tcp/127.0.0.1/${watch#*:}"
  printf "$1" >&3
  timeout 10 cat <&3 | tr -d '\r'
  exec 3>&-
}
wants "a head without its body" "HTTP/1.1 200 OK Content-Length: 8 " \
  "$(raw 'HEAD /healthy HTTP/1.1\r\n\r\n' | grep -v '^Content-Type:\|^Connection:' | paste -sd ' ')"
for line in 'x' 'GET /healthy' 'GET  HTTP/1.1' 'GET /healthy FTP/1.1'; do
  wants "no line of a request: $line" "HTTP/1.1 400 Bad Request" "$(raw "$line\r\n\r\n" | head -n 1)"
done
wants "another method with a long body" 405 \
  "$(head -c 900000 /dev/zero | status -H 'Expect:' --data-binary @- "$watch/metrics")"
wants "a client that falls silent" "HTTP/1.1 400 Bad Request" "$(raw 'GET /met' | head -n 1)"
# four clients that say nothing, and one that drips
for _ in 1 2 3 4; do (exec 3<>"/dev/tcp/127.0.0.1/${watch#*:}"; sleep 8) & running+=("$!"); done
(
  exec 3<>"/dev/tcp/127.0.0.1/${watch#*:}"
  for _ in $(seq 40); do printf G >&3; sleep 0.2; done
) 2>/dev/null &
running+=("$!")
sleep 0.1
wants "the next client" 200 "$(status -m 5 "$watch/healthy")"
# what is counted: three queries and one that is refused, three batches, one refused, two deletions, a cut, no
# path twice sized ARGUMENT..: asks with curl, and notes how many bytes came back
sized() { curl -s -o /dev/null -w '%{size_header}\n%{size_download}\n' "$@" >>"$work/sizes"; }
change() { sized -d "$2" "$at/$1"; }
sized "$at/metrics"
for _ in 1 2 3; do sized "$at/select?selector=up&from=0&to=100"; done
sized "$at/select?selector=up"
# a request of no path that takes between half a second and five
exec 3<>"/dev/tcp/127.0.0.1/${at#*:}"
sleep 0.8
printf 'GET /none HTTP/1.1\r\n\r\n' >&3
cat <&3 | wc -c >>"$work/sizes"
exec 3>&-
at_time=4611686018427387000
# row LABELS SAMPLES: a row of a batch
row() { printf '{"labels":{%s},"samples":[%s]}' "$1" "$2"; }
up='"__name__":"up"'
change write "[$(row "$up" "[$at_time,1],[$((at_time + 1)),2]"),$(row '"a":"b"' "[$at_time,3]")]"
change write "[$(row "$up" "[$((at_time + 2)),1]")]"
change write "[$(row "$up" "[$((at_time + 3)),1]")]"
change write "[$(row "$up" "[1,1]")]"
curl -s "$watch/metrics" >"$work/metrics"
value() { sed -n "s/^$1 //p" "$work/metrics"; }
wants "series of the head" 2 "$(value fuzzledge_head_series)"
wants "samples of the head" 5 "$(value fuzzledge_head_samples)"
for _ in 1 2; do change delete "{\"selector\":\"{a=\\\"b\\\"}\",\"from\":0,\"to\":$((at_time + 9))}"; done
change cut "{\"at\":$((at_time + 2))}"
sleep 0.3
curl -s "$watch/metrics" >"$work/metrics"
wants "what promtool finds" "" "$(promtool check metrics <"$work/metrics" 2>&1)"
wants "queries" 3 "$(value 'fuzzledge_requests_total{path="select",status="200"}')"
wants "queries that were refused" 1 "$(value 'fuzzledge_requests_total{path="select",status="400"}')"
wants "batches that were replied to" 3 "$(value 'fuzzledge_requests_total{path="write",status="200"}')"
wants "deletions that were replied to" 2 "$(value 'fuzzledge_requests_total{path="delete",status="200"}')"
wants "cuts that were replied to" 1 "$(value 'fuzzledge_requests_total{path="cut",status="200"}')"
wants "batches that were refused" 1 "$(value 'fuzzledge_requests_total{path="write",status="409"}')"
wants "requests of no path" 2 "$(value 'fuzzledge_requests_total{path="other",status="404"}')"
wants "refusals H3" 2 "$(value 'fuzzledge_refusals_total{code="H3"}')"
wants "refusals H5" 1 "$(value 'fuzzledge_refusals_total{code="H5"}')"
wants "refusals H9" 1 "$(value 'fuzzledge_refusals_total{code="H9"}')"
wants "refusals H11" 0 "$(value 'fuzzledge_refusals_total{code="H11"}')"
wants "no refusal that there isn't" "" "$(grep H14 "$work/metrics")"
wants "batches" 3 "$(value 'fuzzledge_events_total{kind="batch"}')"
wants "deletions" 2 "$(value 'fuzzledge_events_total{kind="deletion"}')"
wants "cuts" 1 "$(value 'fuzzledge_events_total{kind="cut"}')"
wants "samples" 5 "$(value fuzzledge_samples_accepted_total)"
wants "times of queries" 4 "$(value 'fuzzledge_request_duration_seconds_count{path="select"}')"
# bucket PATH LE: how many requests of a path took at most so many seconds
bucket() { value "fuzzledge_request_duration_seconds_bucket{path=\"$1\",le=\"$2\"}"; }
wants "the last bucket of queries" 4 "$(bucket select +Inf)"
wants "a bucket in the middle" 1 "$(bucket other 0.500000)"
wants "a bucket above it" 2 "$(bucket other 5.000000)"
for path in select write delete cut other; do
  sum=$(value "fuzzledge_request_duration_seconds_sum{path=\"$path\"}")
  wants "the sum of times of $path" yes "$(echo "$sum" | awk '$1 > 0 && $1 < 60 { print "yes" }')"
done
wants "bytes" "$(awk '{ n += $1 } END { print n }' "$work/sizes")" "$(value fuzzledge_replied_bytes_total)"
wants "floor of the head" "$((at_time + 2))" "$(value fuzzledge_head_floor)"
wants "blocks" 2 "$(value fuzzledge_blocks)"
wants "workers" 3 "$(value fuzzledge_workers)"
wants "workers that are busy" 0 "$(value fuzzledge_workers_busy)"
resident=$(value process_resident_memory_bytes)
wants "memory" yes "$([ "$resident" -gt 1000000 ] && [ "$resident" -lt 1000000000 ] && echo yes)"
wants "the build" 1 \
  "$(grep -c '^fuzzledge_build_info{version="[0-9.]*",kit="rattle-kit-[0-9a-z]*"} 1$' "$work/metrics")"
for _ in 1 2 3; do (exec 3<>"/dev/tcp/127.0.0.1/${at#*:}"); done
sleep 0.3
curl -s "$watch/metrics" >"$work/later"
wants "what a connection without a byte counts" "" \
  "$(diff <(grep -v ^process "$work/metrics") <(grep -v ^process "$work/later"))"

# a server with a token, of which one worker has ended
other=127.0.0.1:$(free_ports 1)
echo secret >"$work/token"
chmod 600 "$work/token"
serve guarded --workers 2 --requests 1 --guard "$work/token" --status-port "${other#*:}"
wants "a write without the token" 403 "$(status -d '[]' "$at/write")"
sleep 0.3
wants "metrics without the token, of another host" 200 \
  "$(curl -s -o "$work/metrics" -w '%{http_code}' -H 'Host: other.example' "$other/metrics")"
wants "refusals H12" 1 "$(value 'fuzzledge_refusals_total{code="H12"}')"
wants "writes without the token" 1 "$(value 'fuzzledge_requests_total{path="write",status="403"}')"
wants "workers with one that has ended" "2 0" "$(value fuzzledge_workers) $(value fuzzledge_workers_busy)"

# a real Prometheus
mkdir "$work/data"
port=$(free_ports 1)
cat >"$work/prometheus.yml" <<END
global:
  scrape_interval: 1s
scrape_configs:
  - job_name: fuzzledge
    static_configs:
      - targets: ["$watch"]
END
prometheus --config.file="$work/prometheus.yml" --storage.tsdb.path="$work/data" \
  --web.listen-address="127.0.0.1:$port" >"$work/prometheus" 2>&1 &
running+=("$!")
# ask QUERY: the one value that Prometheus has for it
ask() {
  curl -s -G --data-urlencode "query=$1" "127.0.0.1:$port/api/v1/query" |
    python3 -c 'import json, sys
print(*[r["value"][1] for r in json.load(sys.stdin)["data"]["result"]])' 2>/dev/null || true
}
for _ in $(seq 300); do
  if [ "$(ask 'up{job="fuzzledge"}')" = 1 ]; then break; fi
  sleep 0.1
done
wants "Prometheus scrapes it" 1 "$(ask 'up{job="fuzzledge"}')"
wants "what Prometheus has of batches" 3 "$(ask 'fuzzledge_events_total{kind="batch"}')"
wants "what it has of queries" 4 "$(ask 'sum(fuzzledge_requests_total{path="select"})')"
quantile=$(ask 'histogram_quantile(0.9, fuzzledge_request_duration_seconds_bucket{path="select"})')
wants "a quantile of queries" yes "$([ -n "$quantile" ] && echo yes)"
concludes 63 "replies and values"
