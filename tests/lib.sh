# lib.sh: what the shell scripts of tests/, bench/ and packaging/ share. A script sources it first:
#
#     . "$(dirname "$0")/lib.sh"
#
# Then `top` is the repository, and `work` a new folder. When the script ends, the processes in `running` are
# killed, and the folder is removed. `count` is how many things were looked at, and `failed` how many of them
# are not as wanted.
#
# shellcheck shell=bash
top=$(cd "$(dirname "${BASH_SOURCE[0]}")/.." && pwd)
work=$(mktemp -d)
running=()
count=0
failed=0
trap 'stop "${running[@]}"; rm -rf "$work"' EXIT

# needs TOOL..: ends the script if one of these programs is not on this machine
needs() {
  local tool
  for tool in "$@"; do
    command -v "$tool" >/dev/null || { echo "$0: $tool is not here" >&2; exit 1; }
  done
}

# named NAME: whether a variable names a program (QUERIER `querier`), or PREFIX says where make install put
# it; then the variable is set to its path
named() {
  local variable=${1^^}
  [ -n "${!variable:-}" ] || [ -z "${PREFIX:-}" ] || printf -v "$variable" %s "$PREFIX/bin/$1"
  [ -n "${!variable:-}" ] || return 1
  printf -v "$variable" %s "$(realpath -s "${!variable}")"
}

# find_programs NAME..: the same of each, but that a program that nothing names is built where its crate
# stands
find_programs() {
  local name crate
  for name in "$@"; do
    ! named "$name" || continue
    crate=$name
    [ "$name" != auditor ] || crate=auditor_program
    (cd "$top/crates/$crate" && "${RT:-rt}" run -- --version </dev/null >"$work/built" 2>&1) || {
      tail -n 20 "$work/built" >&2
      echo "$0: $name is not built" >&2
      exit 1
    }
    printf -v "${name^^}" %s "$top/crates/$crate/out/$crate"
  done
}

# compile NAME: makes $work/NAME of bench/NAME.rs
compile() {
  "${RUSTC:-rustc}" -O "$top/bench/$1.rs" -o "$work/$1"
}

# make_block SIZE [DIR]: makes the block directory DIR, or $work/SIZE; a size is SERIESxSAMPLES
make_block() {
  "$work/make_block" "${1%x*}" "${1#*x}" "${2:-$work/$1}"
}

# free_ports COUNT: prints so many ports of this machine that nobody has
free_ports() {
  python3 -c 'import socket, sys
found = [socket.create_server(("127.0.0.1", 0)) for _ in range(int(sys.argv[1]))]
print(*[one.getsockname()[1] for one in found])' "$1"
}

# stop PID..: ends processes, and waits for them
stop() {
  local one left=()
  for one in "$@"; do kill "$one" 2>/dev/null || true; done
  for one in "$@"; do wait "$one" 2>/dev/null || true; done
  for one in "${running[@]}"; do
    case " $* " in *" $one "*) ;; *) left+=("$one") ;; esac
  done
  running=("${left[@]}")
}

# serve NAME WORD..: starts `querier serve --port 0 WORD..`, which writes into $work/NAME, and of faults into
# $work/NAME.faults; and waits until it listens. `server` is the process, `port` its port, and `at` its
# address.
serve() {
  : >"$work/$1" # no line of an earlier one
  "$QUERIER" serve --port 0 "${@:2}" >"$work/$1" 2>"$work/$1.faults" &
  listens "$1"
}

# listens NAME: the same of the last process, which was started to write there
listens() {
  local ended=
  server=$!
  running+=("$server")
  until grep -qs '^listening ' "$work/$1"; do
    [ -z "$ended" ] || { echo "$1 does not listen: $(cat "$work/$1.faults" 2>/dev/null)" >&2; exit 1; }
    # a last line may have come meanwhile
    kill -0 "$server" 2>/dev/null || ended=yes
    sleep 0.05
  done
  port=$(sed -n 's/^listening //p' "$work/$1")
  at=127.0.0.1:$port
}

# status WORD..: the status of a reply to curl
status() {
  curl -s -o /dev/null -w '%{http_code}' "$@"
}

# post PATH BODY: what the server at `at` replies
post() {
  curl -s -d "$2" "$at/$1"
}

# ended WORD..: the exit status of a command, and what it prints
ended() {
  local printed status=0
  printed=$("$@" 2>&1) || status=$?
  echo "$status $printed"
}

# fails LINE: something is not as wanted
fails() {
  echo "$1"
  failed=$((failed + 1))
}

# wants WHAT WANTED GOT: looks at one thing
wants() {
  count=$((count + 1))
  if [ "$2" = "$3" ]; then echo "$1: as wanted"; else fails "$1: wanted $2, got $3"; fi
}

# concludes LEAST WHAT: prints the counts; whether all was as wanted, and at least LEAST things were looked at
concludes() {
  echo "$count $2, $failed of them not as wanted"
  [ "$count" -ge "$1" ] || { echo "fewer than $1 were looked at"; return 1; }
  [ "$failed" = 0 ]
}
