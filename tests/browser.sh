#!/usr/bin/env bash
# browser: shows a page of another site in headless Chromium, whose form posts a batch to `querier serve` of
# this machine. The server without rules takes it; with `--guard` and with `--read-only` the post changes
# nothing. It needs chromium, curl and python3. QUERIER names a program that is built already; else it is
# built where it stands. Exit status 0 if each of the three servers has what is wanted.
set -eu
. "$(dirname "$0")/lib.sh"
needs "${CHROMIUM:-chromium}" curl python3
find_programs querier
(umask 077 && printf 's3cret\n' >"$work/token")
# a form with plain text sends its name, an equals sign and its value: together a batch of two rows
cat >"$work/page.py" <<'END'
import http.server, sys
name = '[{"labels":{"__name__":"up"},"samples":[[1,1]]},{"labels":{"a":"'
value = 'b"},"samples":[[1,1]]}]'
page = f"""<!doctype html>
<form id=f method=post enctype=text/plain action="http://127.0.0.1:{sys.argv[1]}/write">
<input name='{name}' value='{value}'></form><script>document.getElementById("f").submit()</script>"""
class Site(http.server.BaseHTTPRequestHandler):
    def do_GET(self):
        self.send_response(200)
        self.send_header("Content-Type", "text/html")
        self.end_headers()
        self.wfile.write(page.encode())
    def log_message(self, *words):
        pass
site = http.server.HTTPServer(("127.0.0.1", 0), Site)
print(site.server_port, flush=True)
site.serve_forever()
END
none='{"parts":[{"intervals":[],"part":"head","rows":[],"separators":[]}],"rows":[]}'
# shows WHAT TAKEN OPTION..: whether a server with these options takes the post of the page, which is wanted
# if TAKEN is yes
shows() {
  local got=yes
  serve asked --workers 2 "${@:3}"
  : >"$work/site"
  python3 "$work/page.py" "$port" >"$work/site" &
  running+=("$!")
  until [ -s "$work/site" ]; do sleep 0.1; done
  timeout 60 "${CHROMIUM:-chromium}" --headless --no-sandbox --disable-gpu --user-data-dir="$work/profile" \
    --virtual-time-budget=3000 --dump-dom "http://127.0.0.1:$(cat "$work/site")/" \
    >"$work/shown" 2>/dev/null || true
  [ "$(curl -s "$at/select?selector=up&from=0&to=9")" = "$none" ] && got=no
  echo "$1: the browser shows $(grep -o '{.*}' "$work/shown" | head -n 1)"
  wants "$1: whether the form's post changes the store" "$2" "$got"
  stop "${running[@]}"
}
shows "without rules" yes
shows "with a guard" no --guard "$work/token"
shows "read only" no --read-only
concludes 3 servers
