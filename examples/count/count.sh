#!/bin/sh
# Reads the number in a folder, takes its time, and writes it plus one: what a build does to its cache, in short.
#
# usage: count.sh FOLDER
n=$(cat "$1/n" 2>/dev/null || echo 0)
sleep 0.5
echo $((n + 1)) >"$1/n"
