#!/usr/bin/env bash
# Measures `tcpclkit list`, `unpack`, `blocks`, `check` and `pack`: bench/run.sh [PROGRAM [ROUNDS]]
# PROGRAM is by default the one that `./build` left in crates/tcpclkit/out.
set -eu
here=$(cd "$(dirname "$0")" && pwd)
program=${1:-$here/../crates/tcpclkit/out/tcpclkit}
rounds=${2:-5}
[ -x "$program" ] || {
  echo "$program is no program: build it first, by ./build" >&2
  exit 1
}
for tool in python3 cat; do
  command -v "$tool" >/dev/null || {
    echo "$tool is not on this machine" >&2
    exit 1
  }
done
folder=$(mktemp -d)
trap 'rm -rf "$folder"' EXIT
python3 "$here/make.py" "$folder"
python3 "$here/measure.py" "$program" "$folder" "$rounds"
