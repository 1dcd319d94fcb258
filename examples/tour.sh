#!/usr/bin/env bash
# A source on a file, served on loopback and asked with curl. The program is the first argument.
set -euo pipefail
program=$1
room=$(mktemp -d)
trap 'rm -rf "$room"' EXIT

tell() { printf '\n$ %s\n' "$*"; }

tell rs_source format source.disk 1048576 http://127.0.0.1:8080 1000
"$program" format "$room/source.disk" 1048576 http://127.0.0.1:8080 1000

# Port 0 is any free port. The server ends by itself after eight connections.
"$program" serve "$room/source.disk" 0 8 > "$room/served" &
server=$!
until grep -q listening "$room/served"; do sleep 0.05; done
at=http://$(sed -n 's/^listening //p' "$room/served")

ask() {
    tell curl "${@:1:$#-1}" "http://127.0.0.1:8080${!#}"
    curl -sS --max-time 20 "${@:1:$#-1}" "$at${!#}"
}

ask -i -X PUT -H 'Content-Type: text/plain' --data-binary 'hello, mirror' /resource/greeting
ask -i /resource/greeting
ask -X POST /publish
ask /resourcelist.xml
ask -i -X DELETE /resource/greeting
ask /changelist.xml
ask -I /resource/greeting
ask -i --path-as-is /resource/a/../b
wait "$server"

tell rs_source run source.disk
echo status | "$program" run "$room/source.disk"
