#!/usr/bin/env bash
# Installs the programs that the agent's tests call and that aren't there, where root runs this on a Debian: quietly, within some minutes,
# and with status 0 whatever comes of it. What isn't there then its tests skip.
#
# usage: agent/tools.sh
set -uo pipefail

# Whether a tool is there: a program, or a module of Debian's Python.
is_there() {
  case $1 in
    python:*) /usr/bin/python3 -c "import ${1#python:}" ;;
    *) command -v "$1" ;;
  esac >/dev/null 2>&1
}

can_install=no
if [ "$(id -u)" = 0 ] && command -v apt-get >/dev/null; then can_install=yes; fi

quietly() {
  DEBIAN_FRONTEND=noninteractive timeout 240 apt-get -qq -o DPkg::Lock::Timeout=60 -o Acquire::Retries=1 -o Acquire::http::Timeout=20 "$@" \
    </dev/null >/dev/null 2>&1
}

there=0 installed=0 skipped=() updated=no
while read -r tool package; do
  if is_there "$tool"; then
    there=$((there + 1))
    continue
  fi
  if [ $can_install = yes ]; then
    [ $updated = yes ] || quietly update || can_install=no
    updated=yes
    [ $can_install = no ] || quietly install -y --no-install-recommends "$package"
  fi
  if is_there "$tool"; then installed=$((installed + 1)); else skipped+=("$package"); fi
done <<'END'
casync casync
buildah buildah
busybox busybox-static
dockerd docker.io
promtool prometheus
redis-server redis-server
python:mypy python3-mypy
python:pyflakes python3-pyflakes
ip iproute2
chromium chromium
python:boto3 python3-boto3
python:swift python3-swift
END

printf "the agent's tools: %d there, %d installed, %d skipped" $there $installed ${#skipped[@]}
[ ${#skipped[@]} = 0 ] || printf ': %s' "${skipped[*]}"
printf '\n'
