#!/usr/bin/env bash
# Measures `list`, `list --all`, `show`, `check` and `explain` over a transfer of a signed zone (transfer.cap) and over captures
# that it makes, and prints the rows of the tables in docs/PERFORMANCE.md. It needs the built program (make), python3,
# valgrind and GNU time.
set -euo pipefail
cd "$(dirname "$0")"
export PYTHONPATH=../tools
program=../crates/dnssec_check/out/dnssec_check
room=$(mktemp -d)
trap 'rm -rf "$room"' EXIT

measure() { # CAPTURE WORD..
  local capture=$1 instructions peak read written
  shift
  # A capture of many pairs is refused, with status 7, and a verdict that isn't secure has a status of 3 or more.
  /usr/bin/time -q -f %M -o "$room/peak" "$program" "$@" > "$room/text" 2> /dev/null || test $? -ge 3
  valgrind --tool=callgrind --callgrind-out-file="$room/callgrind" "$program" "$@" 2> "$room/log" > "$room/again" \
    || test $? -ge 3
  cmp "$room/text" "$room/again"
  instructions=$(sed -n 's/.*refs: *//p' "$room/log")
  peak=$(cat "$room/peak")
  read=$(stat -c %s "$capture")
  written=$(stat -c %s "$room/text")
  printf '| %s | %s | %s | %s | %s KiB |\n' "$1" "$read" "$written" "$instructions" "$peak"
}

report() { # KIND MESSAGES RECORDS
  ./make_capture.py "$@" > "$room/capture"
  echo "$1: $2 messages of $3 records"
  measure "$room/capture" list --capture "$room/capture" --moment 1500 --all
  measure "$room/capture" show --capture "$room/capture"
}

report_list() { # KIND MESSAGES RECORDS
  ./make_capture.py "$@" > "$room/capture"
  echo "$1: $2 messages of $3 records, what is to check"
  measure "$room/capture" list --capture "$room/capture" --moment 1500
}

report_check() { # KIND MESSAGES RECORDS NAME
  ./make_capture.py "$1" "$2" "$3" > "$room/capture"
  ./make_capture.py anchor > "$room/anchors"
  echo "$1: $2 messages of $3 records, every signature good"
  measure "$room/capture" list --capture "$room/capture" --moment 1500
  sed 's/^todo/good/' "$room/text" > "$room/statements"
  cat "$room/capture" "$room/statements" > "$room/files"
  measure "$room/files" check --capture "$room/capture" --anchors "$room/anchors" --moment 1500 --name "$4" --type 1 \
    --statements "$room/statements"
}

report_denial() { # KIND RECORDS
  local name
  name=$(printf 'a.%.0s' $(seq 127))
  ./make_denials.py "$@" > "$room/capture"
  ./make_denials.py anchors > "$room/anchors"
  "$program" list --capture "$room/capture" --moment 1500 | sed 's/^todo/good/' > "$room/statements"
  echo "$1: $2 records, a question of 127 labels"
  measure "$room/capture" check --capture "$room/capture" --anchors "$room/anchors" --moment 1500 --name "$name" --type 1 \
    --statements "$room/statements"
  callgrind_annotate --inclusive=yes "$room/callgrind" | grep -E 'nsec3_hash ' | head -1 | cut -c1-60 || true
}

report_names() { # MESSAGES RECORDS
  local message number
  ./make_capture.py names "$@" > "$room/capture"
  echo "$bench_key" > "$room/anchors"
  asked=(check --capture "$room/capture" --anchors "$room/anchors" --moment 1500 --type 1)
  echo "names: $1 messages of $2 records, a question of the first and one of the last"
  measure "$room/capture" "${asked[@]}" --name h0-0.bench.example.
  measure "$room/capture" "${asked[@]}" --name "h$(($1 - 1))-$(($2 - 1)).bench.example."
  echo "one of each, processor seconds in all"
  TIMEFORMAT='%U %S'
  time for message in $(seq 0 $(($1 - 1))); do
    for number in $(seq 0 $(($2 - 1))); do
      "$program" "${asked[@]}" --name "h$message-$number.bench.example." > "$room/text" || test $? -eq 5
    done
  done
}

report_verdict() { # CAPTURE MOMENT ANCHOR NAME TYPE
  "$program" list --capture "$1" --moment "$2" | sed 's/^todo/good/' > "$room/statements"
  echo "$3" > "$room/anchors"
  cat "$1" "$room/statements" > "$room/files"
  measure "$room/files" check --capture "$1" --anchors "$room/anchors" --moment "$2" --name "$4" --type "$5" \
    --statements "$room/statements"
  head -n 1 "$room/text"
}

report_explanation() { # CAPTURE MOMENT NAME TYPE, over the files of the verdict before it
  measure "$room/files" explain --capture "$1" --anchors "$room/anchors" --moment "$2" --name "$3" --type "$4" \
    --statements "$room/statements"
}

report_failure() { # CAPTURE NAME TYPE WORD, which the verifier says of each signature
  "$program" list --capture "$1" --moment 1500 | sed "s/^todo/$4/" > "$room/statements"
  cat "$1" "$room/statements" > "$room/files"
  for request in check explain; do
    measure "$room/files" "$request" --capture "$1" --anchors "$room/anchors" --moment 1500 --name "$2" --type "$3" \
      --statements "$room/statements"
  done
  grep -c -e '^reason ' -e '^follows ' "$room/text"
}

report_signed() { # CAPTURE MOMENT ANCHOR NAME TYPE
  "$program" list --capture "$1" --moment "$2" | sed 's/^todo/good/' > "$room/statements"
  echo "$3" > "$room/anchors"
  ./make_signed.py "$2" "$room/keys" "$room/macs" < "$1" > "$room/signed"
  cat "$room/signed" "$room/statements" "$room/keys" "$room/macs" > "$room/files"
  measure "$room/files" check --capture "$room/signed" --anchors "$room/anchors" --moment "$2" --name "$4" --type "$5" \
    --statements "$room/statements" --keys "$room/keys" --macs "$room/macs"
  head -n 1 "$room/text"
}

echo "transfer: 63 messages"
measure transfer.cap list --capture transfer.cap --moment 1795348800
measure transfer.cap list --capture transfer.cap --moment 1795348800 --all
measure transfer.cap show --capture transfer.cap
for messages in 4 16 64; do report signed "$messages" 64; done
for records in 160 640 2560 3000; do report owners 1 "$records"; done
report deep 1 3000
for records in 100 400 1600; do report pairs 1 "$records"; done
for messages in 16 64; do report_list keyed "$messages" 64; done
for messages in 1 4 16 64; do report_list tagged "$messages" 64; done
report_check tree 16 64 z127.z15.z1.bench.example.
report_check tree 64 64 z511.z63.z7.bench.example.
deepest="$(printf 'z.%.0s' {1..59})bench.example."
report_check chain 60 8 "$deepest"
report_explanation "$room/capture" 1500 "$deepest" 1
for messages in 4 16; do report_check collide "$messages" 64 sub.bench.example.; done
for kind in near far hashed; do for records in 1024 4096; do report_denial $kind $records; done; done
report_denial hashed 18

bench_key="KEY bench.example. 257 3 13 AAAD6AABAgMEBQYHCAkKCwwNDg8QERITFBUWFxgZGhscHR4fICEiIyQlJicoKSorLC0uLzAxMjM0NTY3ODk6Ow=="
for messages in 16 64; do report_names "$messages" 64; done
echo "what fails: 60 zones without DS RRsets, each signature good"
./make_capture.py anchor > "$room/anchors"
./make_capture.py bare 60 8 > "$room/capture"
report_failure "$room/capture" "$deepest" 1 good
for records in 1024 4096; do
  echo "what fails: $records records of NSEC3 that say nothing, each signature good"
  ./make_denials.py hashed "$records" > "$room/capture"
  ./make_denials.py anchors > "$room/anchors"
  report_failure "$room/capture" "$(printf 'a.%.0s' $(seq 127))" 1 good
done
for messages in 16 64; do
  echo "what fails: $messages messages of 64 records, 16 keys of one tag, 16 signatures of each RRset, each bad"
  ./make_capture.py vouched "$messages" 64 > "$room/capture"
  echo "$bench_key" > "$room/anchors"
  report_failure "$room/capture" h0.bench.example. 28 bad
done
root_key="DS . 36374 8 2 bff03ea84f03157df9e68034cc09e1c5af266002a79a6b553de579542aa33f96"
echo "verdicts on names of transfer.cap"
for name in host-0500 nosuch; do
  report_verdict transfer.cap 1795348800 "$root_key" "$name.big.test." 1
  report_explanation transfer.cap 1795348800 "$name.big.test." 1
done
echo "the same, each message signed for its receiver"
report_signed transfer.cap 1795348800 "$root_key" host-0500.big.test. 1
for kind in keyed tagged vouched; do
  for messages in 16 64; do
    ./make_capture.py "$kind" "$messages" 64 > "$room/capture"
    echo "$kind: $messages messages of 64 records, a verdict"
    report_verdict "$room/capture" 1500 "$bench_key" h0.bench.example. 28
  done
done
