#!/usr/bin/env bash
# run.sh PROGRAM [JOB]: moves the guide's program (its third part) or the program of a job, runs it on a JVM, and compares what it writes with
# `run --form=plain`. PROGRAM is what `rt ci` built (crates/javasec/out/javasec); javac and java, 17 or later, have to be there.
set -eu
if [ $# -lt 1 ] || [ $# -gt 2 ]; then
    sed -n 's/^# //p' "$0" >&2
    exit 2
fi
program=$(realpath "$1")
here=$(cd "$(dirname "$0")" && pwd)
folder=$(mktemp -d)
trap 'rm -rf "$folder"' EXIT
job=${2:-vault.job}
if [ $# -eq 1 ]; then
    data=$here/../../crates/tests_runs/data
    cp -r "$data/vault.job" "$data/vault.policy" "$data/vault" "$folder"
    cd "$folder"
fi
javac -d "$folder/rt" "$here"/sps/*.java
"$program" rewrite "$job" "$folder/out"
"$program" policy "$folder/out/job" >"$folder/grants"
status=0
"$program" run --form=plain "$folder/out/job" >"$folder/told" || status=$?
grep -v '^throw ' "$folder/told" >"$folder/want" || true
got=0
java -XX:-ShowCodeDetailsInExceptionMessages -cp "$folder/rt" sps.Main "$folder/out/job" "$folder/grants" >"$folder/got" || got=$?
cat "$folder/got"
diff "$folder/want" "$folder/got"
[ "$status" = "$got" ]
echo "the JVM wrote what run --form=plain wrote, and ended with status $got"
