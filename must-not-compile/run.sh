#!/usr/bin/env bash
# Tries each edit of must-not-compile/NAME/*.edit on a copy of the crate NAME: the compiler must refuse it with the error
# that the edit's line 'error:' names. `rt must-fail` takes no such edit, since there the prover has to refuse it.
# usage: must-not-compile/run.sh, at the top of the repository
set -euo pipefail
top=$(pwd)
room=$(mktemp -d)
trap 'rm -rf "$room"' EXIT
cp HANDLES crates.txt "$room/"
mkdir "$room/crates"

# Copies what a check reads of a crate; nothing that was proved, since an edit is refused before anything is.
copy_crate() {
  mkdir -p "$room/crates/$1"
  for part in src specs proofs; do
    [ ! -d "$top/crates/$1/$part" ] || cp -r "$top/crates/$1/$part" "$room/crates/$1/"
  done
}

# Applies an edit to the copy of its crate.
apply() {
  python3 - "$1" "$2" <<'P'
import sys
path, old = None, None
for line in open(sys.argv[1], encoding="utf-8").read().split("\n"):
    if line.startswith("file: "):
        path = sys.argv[2] + "/" + line[6:].strip()
    elif line.startswith("old: "):
        old = line[5:]
    elif line.startswith("new:"):
        text = open(path, encoding="utf-8").read()
        if text.count(old) != 1:
            sys.exit(f"{sys.argv[1]}: its old text doesn't stand there exactly once")
        open(path, "w", encoding="utf-8").write(text.replace(old, line[4:].removeprefix(" ")))
P
}

for crate in crates/*; do
  copy_crate "${crate#crates/}"
done
failed=0
for edit in must-not-compile/*/*.edit; do
  name=$(basename "$(dirname "$edit")")
  wanted=$(sed -n 's/^error: //p' "$edit")
  rm -rf "$room/crates/$name"
  copy_crate "$name"
  apply "$edit" "$room/crates/$name"
  # Where the edit compiles, the check goes on to the libraries below, and is stopped in the end. A busy machine may take minutes
  # before the compiler comes to the edit.
  ended=0
  said=$(cd "$room/crates/$name" && timeout 1200 rt check --only "" 2>&1) || ended=$?
  if grep -qF "error[$wanted]" <<<"$said"; then
    echo "$edit: refused: $(grep -m1 -F "error[$wanted]" <<<"$said" | cut -c1-140)"
  else
    case $ended in
      124) echo "$edit: NOT refused with $wanted within 20 minutes; it ended with:" ;;
      *) echo "$edit: NOT refused with $wanted:" ;;
    esac
    tail -5 <<<"$said"
    failed=1
  fi
done
exit $failed
