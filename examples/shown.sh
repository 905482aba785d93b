#!/usr/bin/env bash
# Compares what farmctl prints and draws of each example with what stands beside it; with --write it makes that anew.
set -euo pipefail
program=$(realpath "${FARMCTL:-$(dirname "${BASH_SOURCE[0]}")/../farmctl}")
cd "$(dirname "${BASH_SOURCE[0]}")"
mode=${1:-}
count=0

# What farmctl prints with these words is what the file has.
shown() {
  local file=$1
  shift
  if [ "$mode" = --write ]; then
    "$program" "$@" >"$file" 2>&1 || true
  else
    { "$program" "$@" 2>&1 || true; } | cmp - "$file"
  fi
  count=$((count + 1))
}

for schedule in *.schedule; do
  shown "${schedule%.schedule}.printed" replay "$schedule"
  shown "${schedule%.schedule}.svg" draw "$schedule"
done
for record in *.record; do
  shown "${record%.record}.printed" record "$record"
done
for definition in *.llb; do
  shown "${definition%.llb}.printed" wants "$definition"
done
echo "examples: $count files as farmctl prints and draws them"
