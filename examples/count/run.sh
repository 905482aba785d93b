#!/usr/bin/env bash
# Six commands each add one to a number in a folder, three on each of two nodes: first in a folder that both see, then in one that a
# farm leases. Then one on each adds 100 rows to SQLite's database. Last, where it may make mount namespaces, six at once each add a file
# for a second, in a merged folder. Prints what there is at the end. Status 0 where the farm lost nothing.
#
# usage: examples/count/run.sh
set -euo pipefail
here=$(cd "$(dirname "$0")" && pwd)
top=$here/../..
room=$(mktemp -d /tmp/count-XXXXXX)
farm=
finish() {
  [ -z "$farm" ] || { kill "$farm" && wait "$farm" || true; }
  rm -rf "$room"
}
trap finish EXIT

# Starts a command as often as is said, with the node and a number of its own as its last words, and waits for all.
times() {
  local each pids=() count=$1
  shift
  for each in $(seq "$count"); do
    "$@" $((each % 2 + 1)) "$each" 2>>"$room/said" &
    pids+=($!)
  done
  for each in "${pids[@]}"; do wait "$each"; done
}

alone() { "$here/count.sh" "$room/plain"; }
alone_rows() { "$here/rows.py" "$room/plain" "$2"; }
leased() { "$top/farm" run --node "$1" --folder "locked:count=$room/w$2" -- "$here/count.sh" "$room/w$2"; }
merged() { "$top/farm" run --node "$1" --folder "merged:files=$room/m" -- sh -c "sleep 1; echo $2 > $room/m/$2"; }
leased_rows() { "$top/farm" run --node "$1" --folder "locked:rows=$room/r$2" -- "$here/rows.py" "$room/r$2" "$2"; }

# Adds the numbers that are written one a line.
sum() {
  local each all=0
  while read -r each; do all=$((all + each)); done
  printf '%s\n' "$all"
}

mkdir "$room/plain"
times 6 alone
printf 'a plain folder: 6 commands added one, and the number is %s\n' "$(cat "$room/plain/n")"
has_sqlite=yes
python3 -c 'import sqlite3' 2>/dev/null || has_sqlite=
if [ -n "$has_sqlite" ]; then
  confirmed=$(times 2 alone_rows | sum)
  printf 'a plain folder: SQLite confirmed %s rows, and %s are there\n' "$confirmed" "$("$here/rows.py" "$room/plain" count)"
fi

export FARM_HOME=$room/home
mkfifo "$room/up"
"$top/farm" up --nodes 2 >"$room/up" 2>>"$room/said" &
farm=$!
read -r _ <"$room/up" || { cat "$room/said"; exit 1; }
times 6 leased
"$top/farm" get locked:count "$room/last"
number=$(cat "$room/last/n")
printf 'leased folders: 6 commands added one, and the number is %s\n' "$number"
if [ -n "$has_sqlite" ]; then
  confirmed=$(times 2 leased_rows | sum)
  "$top/farm" get locked:rows "$room/rows"
  rows=$("$here/rows.py" "$room/rows" count)
  printf 'leased folders: SQLite confirmed %s rows, and %s are there\n' "$confirmed" "$rows"
  [ "$confirmed $rows" = '200 200' ]
fi
if [ "$(id -u)" = 0 ] && unshare -pm true 2>/dev/null; then
  begun=$SECONDS
  times 6 merged
  "$top/farm" get locked:files "$room/files"
  files=$(find "$room/files" -type f | wc -l)
  printf 'a merged folder: 6 commands of a second at once added a file, and %s are there after %s seconds\n' "$files" $((SECONDS - begun))
  [ "$files" = 6 ]
fi
[ "$number" = 6 ]
