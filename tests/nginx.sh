#!/usr/bin/env bash
# nginx: runs the configuration of docs/OPERATING.md in Debian's nginx on ports of this machine, over `querier
# serve` with one worker, and asks both with curl: passwords, readers and writers, paths, a body that is too
# long, and clients that are slow. It needs nginx, openssl, curl and python3. QUERIER names a program that is
# built already; else it is built where it stands. Exit status 0 if each reply is as wanted.
set -euo pipefail
. "$(dirname "$0")/lib.sh"
needs nginx openssl curl python3
find_programs querier
chmod 755 "$work"
serve behind --workers 1 --idle-seconds 20 "$top/examples/good"
behind=$port

# the configuration of the page, with other ports and files
port=$(free_ports 1)
sed -n '/^    server {$/,/^    }$/p' "$top/docs/OPERATING.md" |
  sed "s|listen 443|listen 127.0.0.1:$port|; s|127.0.0.1:8080|127.0.0.1:$behind|
    s|/etc/nginx/series|$work/series|" >"$work/site"
wants "names of ports and files in the configuration" 7 \
  "$(grep -c -e "$port" -e "$behind" -e "$work" "$work/site")"
cat >"$work/nginx.conf" <<END
pid $work/pid;
error_log $work/errors;
events {}
http {
    access_log off;
    client_body_temp_path $work/bodies;
    proxy_temp_path $work/replies;
    fastcgi_temp_path $work/none;
    uwsgi_temp_path $work/none;
    scgi_temp_path $work/none;
    include $work/site;
}
END
openssl req -x509 -newkey rsa:2048 -nodes -days 2 -subj /CN=series.example \
  -addext subjectAltName=DNS:series.example -keyout "$work/series.key" -out "$work/series.crt" 2>/dev/null
echo "reader:$(openssl passwd -apr1 read)" >"$work/series.readers"
echo "writer:$(openssl passwd -apr1 write)" >"$work/series.writers"
nginx -p "$work" -c "$work/nginx.conf" -g 'daemon off;' 2>"$work/started" &
proxy=$!
running+=("$proxy")
ask() { curl -s -m 10 --cacert "$work/series.crt" --resolve "series.example:$port:127.0.0.1" "$@"; }
status() { ask -o "$work/body" -w '%{http_code}' "$@"; }
at=https://series.example:$port
for _ in $(seq 50); do ! status "$at/none" >/dev/null || break; sleep 0.1; done
kill -0 "$proxy" || { cat "$work/started" "$work/errors" >&2; exit 1; }

query=(-G -d from=0 -d to=100 --data-urlencode 'selector=up{job="a"}')
ask -u reader:read "${query[@]}" "$at/select" >"$work/reply" || true
"$QUERIER" select --from=0 --to=100 'up{job="a"}' "$top/examples/good" | tr -d '\n' >"$work/direct"
wants "the answer to a reader" "$(cat "$work/direct")" "$(cat "$work/reply")"
wants "a query without a password" 401 "$(status "${query[@]}" "$at/select")"
wants "a query with a wrong password" 401 "$(status -u reader:write "${query[@]}" "$at/select")"
wants "a query without TLS" 400 \
  "$(curl -s -m 10 -o /dev/null -w '%{http_code}' "http://127.0.0.1:$port/select")"
wants "a selector that is refused" '{"at":7,"cause":"M4","refused":"H6"}' \
  "$(ask -u reader:read -G -d from=0 -d to=1 --data-urlencode 'selector=up{job=a}' "$at/select")"
row='[{"labels":{"__name__":"up","job":"new"},"samples":[[30,1]]}]'
wants "a reader that writes" 401 "$(status -u reader:read -d "$row" "$at/write")"
wants "nobody that writes" 401 "$(status -d "$row" "$at/write")"
wants "a writer" '{"ok":true}' "$(ask -u writer:write -d "$row" "$at/write")"
wants "a writer that sends pieces" '{"ok":true}' \
  "$(ask -u writer:write -H 'Transfer-Encoding: chunked' -d "$row" "$at/write")"
wants "a sample before the floor" '{"at":0,"cause":"E1","refused":"H9"}' \
  "$(ask -u writer:write -d "${row/30,1/10,1}" "$at/write")"
wants "the sample that was written" 1 \
  "$(ask -u reader:read -G -d from=30 -d to=30 -d selector=up "$at/select" |
    grep -c '"rows":\[{"labels":{"__name__":"up","job":"new"},"samples":\[\[30,1\]\]}\]}$')"
wants "a POST to select" 403 "$(status -u reader:read -d "$row" "$at/select")"
wants "a GET of write" 403 "$(status -u writer:write "$at/write")"
wants "another path" 404 "$(status -u reader:read "$at/")"
head -c 1100000 /dev/zero >"$work/zeros"
wants "a body that is too long, for nginx already" "413 1" \
  "$(status -u writer:write -H Expect: --data-binary "@$work/zeros" "$at/write") $(
    grep -c '<center>nginx' "$work/body")"

# clients that do not send what they promised: straight to the only worker, and by way of nginx
slow() {
  printf '%s\r\n' 'POST /write HTTP/1.1' 'Host: series.example' \
    "Authorization: Basic $(printf writer:write | base64)" 'Content-Length: 90' ''
  sleep 8
}
for _ in 1 2 3; do
  (slow | openssl s_client -quiet -connect "127.0.0.1:$port" >/dev/null 2>&1) &
done
sleep 1
wants "a query beside slow clients of nginx" 200 "$(status -m 3 -u reader:read "${query[@]}" "$at/select")"
(exec 3<>"/dev/tcp/127.0.0.1/$behind"; slow >&3) &
sleep 1
wants "the same beside one that holds the worker" 000 \
  "$(status -m 3 -u reader:read "${query[@]}" "$at/select" || true)"
concludes 18 things
