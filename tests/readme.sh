#!/usr/bin/env bash
# readme: types each command of README.md, every line that begins with `$ `, and compares what it prints with
# the lines below it. The commands run one after another in one shell, in a copy of examples/, so that `cd
# examples` and a server in the background work as they do for a reader; the servers take free ports, and
# their clients ask there. QUERIER, AUDITOR, EXPLAIN and BLOCKTOOL name programs that are built already (or
# PREFIX, where make install put them); else they are built where they stand. A line that ends in <!-- needs
# PROGRAM --> says that the commands up to the next heading are left if PROGRAM is not here, and that `..` in
# what they print is any text. It needs curl and python3: examples/make makes the directories again, to
# compare them with those that are asked. Exit status 0 if each command printed what the page says, and there
# were at least LEAST of them.
set -eu
. "$(dirname "$0")/lib.sh"
page=${PAGE:-$top/README.md}
least=${LEAST:-14}
needs curl python3
find_programs querier auditor explain blocktool
mkdir "$work/bin"
ln -s "$QUERIER" "$work/bin/querier"
ln -s "$AUDITOR" "$work/bin/auditor"
ln -s "$EXPLAIN" "$work/bin/explain"
ln -s "$BLOCKTOOL" "$work/bin/blocktool"
cp -r "$top/examples" "$work/examples"
export PATH=$work/bin:$PATH
cd "$work"
trap 'stop "${running[@]}" $(jobs -p); rm -rf "$work"' EXIT
# the program that the commands need, up to the next heading
tool=
# ports in place of the page's: of three Prometheus, and of the store's port for them
read -r sender viewer lender remote < <(free_ports 4)
on_ports() {
  sed -e "s/localhost:9090/localhost:$sender/g" -e "s/localhost:9091/localhost:$viewer/g" \
    -e "s/localhost:9092/localhost:$lender/g" \
    -e "s/127.0.0.1:9201/127.0.0.1:$remote/g" -e "s/--prometheus-port 9201/--prometheus-port $remote/g" "$@"
}
on_ports -i "$work"/examples/*.yml

# starts a server as the command says, on a free port, and prints its line with the port of the command
start() {
  local written command
  written=${1##*--port }
  written=${written%% *}
  command=$(on_ports <<<"${1/--port $written/--port 0}")
  : >"$work/told"
  eval "${command%&} >'$work/told' &"
  listens told
  sed "s/$port/$written/" "$work/told" >"$work/printed"
}

# a pause behind the start of a Prometheus: on a busy machine it is ready only after minutes
sleep() {
  local waited=0
  until [ -z "$listener" ] || [ "$waited" = 120 ] || [ "$(status "$listener/-/ready")" = 200 ]; do
    command sleep 1
    waited=$((waited + 1))
  done
  command sleep "$1"
}

# runs one command in this shell, and compares what it printed with the lines that the page has below it
run() {
  [ -n "$1" ] || return 0
  if [ -n "$tool" ] && ! command -v "$tool" >/dev/null; then
    echo "left, since $tool is not here: ${1:0:80}"
    return
  fi
  count=$((count + 1))
  local typed
  typed=$(on_ports <<<"$1")
  listener=
  case $1 in
    *'serve --port'*'&') start "$1"; typed= ;;
    'prometheus '*)
      [[ $1 == *--web.listen-address=* ]] ||
        typed=${typed/prometheus /prometheus --web.listen-address=localhost:$sender }
      listener=${typed#*--web.listen-address=}
      listener=${listener%% *} ;;
    # a reply ends without a line feed
    'curl '*127.0.0.1:8080*) typed="${1//127.0.0.1:8080/$at} -s; echo" ;;
  esac
  [ -z "$typed" ] || eval "$typed" >"$work/printed" 2>&1 || true
  # what a Prometheus finds out, as that an alert fires, takes longer on a busy machine
  for _ in {1..60}; do
    if is_written || [[ -z $tool || $1 != 'curl '* ]]; then break; fi
    command sleep 1
    eval "$typed" >"$work/printed" 2>&1 || true
  done
  if is_written; then
    echo "as written: ${1:0:80}"
  else
    fails "not as written: $1"
    diff "$work/wanted" "$work/printed" || true
  fi
}

# whether the last command printed what the page has; `..` is any text of a program that may not be here
is_written() {
  local pattern
  pattern=$(sed -e 's/[][*?\\]/\\&/g' -e 's/\.\./*/g' "$work/wanted")
  # shellcheck disable=SC2053 # it is a pattern
  cmp -s "$work/printed" "$work/wanted" || [[ -n $tool && $(cat "$work/printed") == $pattern ]]
}

asked=
: >"$work/wanted"
while IFS= read -r line <&3; do
  case $line in
    '    $ '*) run "$asked"; asked=${line#'    $ '}; : >"$work/wanted" ;;
    '    '*) printf '%s\n' "${line#'    '}" >>"$work/wanted" ;;
    # other text ends what the last command prints
    *) run "$asked"; asked=; : >"$work/wanted"
      case $line in
        '#'*) tool= ;;
        *'<!-- needs '*' -->') tool=${line##*<!-- needs }; tool=${tool% -->} ;;
      esac ;;
  esac
done 3<"$page"
run "$asked"
# the directories that the commands ask are those that docs/FORMATS.md gives
"$top/examples/make" "$work/made" || fails "examples/make does not make the directories"
for name in good lying; do
  diff -r "$work/made/$name" "$top/examples/$name" || fails "examples/$name is not as made"
done
concludes "$least" "commands, and their directories"
