#!/usr/bin/env bash
# Measures an iteration of `nsec3_hash` for salts of 0, 8 and 255 octets, and prints the rows of the table in
# docs/PERFORMANCE.md. It builds bench/nsec3 in a copy of the repository; its source has another ending, since the gate
# takes each .rt file for one of a crate. It needs valgrind.
set -euo pipefail
cd "$(dirname "$0")"
room=$(mktemp -d)
trap 'rm -rf "$room"' EXIT
mkdir -p "$room/crates/nsec3_bench/src"
cp -r ../HANDLES "$room"
cp -r ../crates/dnsv_names ../crates/dnsv_digest "$room/crates"
grep -E '^dnsv_(names|digest):' ../crates.txt > "$room/crates.txt"
echo 'nsec3_bench: dnsv_names dnsv_digest anyhow' >> "$room/crates.txt"
cp nsec3/main.rt.in "$room/crates/nsec3_bench/src/main.rt"
cd "$room/crates/nsec3_bench"
rt run -- 0 0 > "$room/log" 2>&1

instructions() { # SALT ITERATIONS
  valgrind --tool=callgrind --callgrind-out-file="$room/callgrind" out/nsec3_bench "$@" 2>&1 | sed -n 's/.*refs: *//p' | tr -d ,
}

for salt in 0 8 255; do
  few=$(instructions "$salt" 0)
  many=$(instructions "$salt" 50000)
  blocks=$(((20 + salt + 9 + 63) / 64))
  awk -v salt="$salt" -v blocks="$blocks" -v each="$(((many - few) / 100000))" \
    'BEGIN { printf "| %d | %d | %d | %.3f |\n", salt, blocks, each, each / (1575 * blocks) }'
done
