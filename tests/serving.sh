#!/usr/bin/env bash
# serving: runs `querier serve` as a user does, and asks it with curl: the session of the README, a body that
# is too long, bytes that nobody reads, clients that go away, clients that say nothing and clients that take
# nothing, a port that is taken, too many open files, workers that end, a token that is asked for, a server
# without POST, replies that have a bound, a thread that cannot be made, a listener that goes away. It needs
# curl, awk and python3. QUERIER names a program that is built already; else it is built where it stands. Exit
# status 0 if each reply is the one wanted.
set -eu
. "$(dirname "$0")/lib.sh"
needs curl awk python3
find_programs querier
serve first --workers 2 --idle-seconds 1
first=$server

# the session of the README: each line of curl, and the line below it
while IFS= read -r line; do
  case $line in
    '    $ curl '*127.0.0.1:8080*) asked=${line#'    $ '} ;;
    '    '*) if [ -n "${asked:-}" ]; then
      wants "${asked:0:60}" "${line#'    '}" "$(eval "${asked//127.0.0.1:8080/$at} -s")"
      asked=
    fi ;;
  esac
done <"$top/README.md"
[ "$count" -ge 5 ] || fails "the README has fewer than five requests"
wants "an older client" '{"refused":"H3"}' "$(curl -s -0 "$at/none")"
wants "a client that waits to be told to go on" '{"ok":true}' \
  "$(curl -s --expect100-timeout 0.3 -H 'Expect: 100-continue' -d '[]' "$at/write")"
wants "what is told of requests" "" "$(cat "$work/first.faults")"

head -c 3000000 /dev/zero >"$work/zeros"
wants "a body that is too long" '{"refused":"H8"}' \
  "$(curl -s -H Expect: --data-binary "@$work/zeros" "$at/write")"
unread() {
  exec 3<>"/dev/tcp/127.0.0.1/$port"
  printf 'GET /none HTTP/1.1\r\n\r\n' >&3
  head -c 60000 /dev/zero >&3
  cat <&3
}
wants "bytes that nobody reads" '{"refused":"H3"}' "$(unread 2>/dev/null | tail -n 1)"
gone() { exec 3<>"/dev/tcp/127.0.0.1/$port"; printf '%s' "$1" >&3; }
for _ in 1 2 3 4; do (gone 'GET /sel'); (gone ''); done
(gone $'GET /none HTTP/1.1\r\n\r\n')
wants "after clients that went away" '{"refused":"H3"}' "$(curl -s "$at/none")"
(exec 4<>"/dev/tcp/127.0.0.1/$port"; sleep 3) &
(exec 5<>"/dev/tcp/127.0.0.1/$port"; printf 'GET ' >&5; sleep 3) &
sleep 0.2
wants "beside clients that say nothing" '{"refused":"H3"}' "$(curl -s -m 10 "$at/none")"

# a reply of megabytes, more than the system keeps for a client that takes none of them
write_bulk() {
  for n in $(seq "$1"); do
    awk -v n="$n" 'BEGIN {
      printf "[{\"labels\":{\"__name__\":\"bulk\"},\"samples\":["
      for (k = 0; k < 4096; k++) printf "%s[18%010d,9223372036854775807]", k ? "," : "", n * 4096 + k
      printf "]}]" }' | curl -s -H Expect: --data-binary @- "$at/write"
    echo
  done | sort | uniq -c | sed 's/^ *//'
}
wants "batches of 4,096 samples" '40 {"ok":true}' "$(write_bulk 40)"
ask_bulk='GET /select?selector=bulk&from=0&to=4611686018427387903 HTTP/1.1'
for _ in 1 2; do (exec 6<>"/dev/tcp/127.0.0.1/$port"; printf '%s\r\n\r\n' "$ask_bulk" >&6; sleep 8) & done
sleep 1
wants "beside clients that take nothing" '{"refused":"H3"}' "$(curl -s -m 20 "$at/none")"
sleep 2
wants "what is told of them" 2 "$(grep -c '^cannot write a reply$' "$work/first.faults")"

# only 127.0.0.1 is listened on: another address of this machine is refused (7)
wants "another address" "7 " "$(ended curl -s -m 10 "127.0.0.2:$port/none")"

wants "a port that is taken" "3 cannot listen on $at" "$(ended "$QUERIER" serve --port "$port")"
kill -0 "$first" 2>/dev/null || fails "the server has ended"

# a server that may open few files: three, its listener and four connections, of eight workers
(
  ulimit -n 8
  exec "$QUERIER" serve --port 0 --workers 8 --idle-seconds 1
) >"$work/crowd" 2>"$work/crowd.faults" &
listens crowd
for _ in 1 2 3 4 5 6; do (exec 7<>"/dev/tcp/127.0.0.1/$port"; sleep 3) & done
sleep 0.5
wants "where too many files are open" '{"refused":"H3"}' "$(curl -s -m 20 "$at/none")"
grep -q '^cannot accept a connection: ' "$work/crowd.faults" || fails "nothing is told of too many open files"

serve few --workers 2 --requests 2
for n in 1 2 3 4; do wants "connection $n of four" '{"refused":"H3"}' "$(curl -s -m 10 "$at/none")"; done
wait "$server" && code=0 || code=$?
wants "after four connections" 0 "$code"

# a server that asks for a token
printf 's3cret\n' >"$work/token"
chmod 644 "$work/token"
wants "a token that others may read" "3 cannot read $work/token" \
  "$(ended "$QUERIER" serve --port 0 --guard "$work/token")"
chmod 600 "$work/token"
serve guarded --workers 1 --guard "$work/token"
up='[{"labels":{"__name__":"up"},"samples":[[1,1]]}]'
none='{"parts":[{"intervals":[],"part":"head","rows":[],"separators":[]}],"rows":[]}'
bears='Authorization: Bearer s3cret'
wants "a batch without the token" '{"refused":"H12"}' "$(post write "$up")"
wants "its status" 403 "$(status -d "$up" "$at/write")"
wants "a batch with another token" '{"refused":"H12"}' "$(curl -s -H "${bears}s" -d "$up" "$at/write")"
asked="$at/select?selector=up&from=0&to=9"
wants "a batch of a page" '{"refused":"H12"}' \
  "$(curl -s -H "$bears" -H 'Origin: http://a.example' -d "$up" "$at/write")"
wants "a query of a page" '{"refused":"H12"}' "$(curl -s -H 'Origin: null' "$asked")"
wants "another name of this machine" '{"refused":"H12"}' "$(curl -s -H 'Host: a.example' "$asked")"
wants "no name of a machine" '{"refused":"H12"}' "$(curl -s -H 'Host:' "$asked")"
wants "a query after them" "$none" "$(curl -s "$asked")"
wants "a batch with the token" '{"ok":true}' "$(curl -s -H "$bears" -d "$up" "$at/write")"
wants "a query by another name" '[[1,1]]' \
  "$(curl -s -H 'Host: localhost' "$asked" | grep -o '\[\[1,1\]\]' | head -n 1)"
stop "$server"

# a server that has no POST
serve read-only --workers 1 --read-only
wants "a batch where there is no POST" '{"refused":"H3"}' "$(post write "$up")"
wants "a query after it" "$none" "$(curl -s "$at/select?selector=up&from=0&to=9")"
stop "$server"

# a server whose replies have a bound: by 56 bytes a sample all is too long, and two of the others together
serve bounded --workers 3 --idle-seconds 20 --reply-memory 10
wants "batches for replies with a bound" '48 {"ok":true}' "$(write_bulk 48)"
whole="$at/select?selector=bulk&from=0&to=4611686018427387903"
part='/select?selector=bulk&from=0&to=180000167935'
wants "a reply that is longer than the bound" '{"refused":"H13"}' "$(curl -s -m 20 "$whole")"
wants "its status" 503 "$(status "$whole")"
wants "a reply that is not" 200 "$(status "$at$part")"
(exec 6<>"/dev/tcp/127.0.0.1/$port"; printf 'GET %s HTTP/1.1\r\n\r\n' "$part" >&6; sleep 6) &
sleep 0.5
head='{"intervals":[{"from":1,"until":4294967296,"verdict":0}],"part":"head","rows":[],"separators":[1]}'
wants "a short reply beside a client that takes none of a long one" "{\"parts\":[$head],\"rows\":[]}" \
  "$(curl -s -m 20 "$at/select?selector=up&from=0&to=9")"
wants "a long reply that waits until that one is over" 200 "$(status -m 30 "$at$part")"
stop "$server"

# a server that has no room for the stacks of 64 threads: what it tells of faults
narrow() { (ulimit -v 200000; exec "$QUERIER" serve --port 0 --workers 64) >"$work/narrow"; }
wants "a thread that cannot be made" "3 cannot make a thread" "$(ended narrow)"

# a server whose listener another process shuts down: its parent may take a copy of the socket
cat >"$work/gone.py" <<'END'
import ctypes, os, socket, sys
sys.dont_write_bytecode = True
from lib import Running
server = Running([sys.argv[1], "serve", "--port", "0", "--workers", "3"])
server.wait()
call = ctypes.CDLL(None).syscall
pidfd = os.pidfd_open(server.process.pid)
files = f"/proc/{server.process.pid}/fd"
for name in os.listdir(files):
    if os.readlink(f"{files}/{name}").startswith("socket:"):
        copy = call(438, pidfd, int(name), 0)  # pidfd_getfd
        socket.socket(fileno=copy).shutdown(socket.SHUT_RDWR)
print(server.ended(20), server.told)
END
wants "a listener that is gone" "3 there is no listener any more" \
  "$(PYTHONPATH=$top/tests python3 "$work/gone.py" "$QUERIER")"
concludes 44 "replies and lines"
