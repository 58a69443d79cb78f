#!/bin/sh
# Compiles a program that ends otherwise than in Java, runs it by the program and by `java`, and compares. It is what the guide says in "Where
# Java differs".
# Usage: examples/guide/differs.sh PROGRAM, with the program that `rt ci` builds (crates/javasec/out/javasec).
set -eu
program=$(realpath "$1")
examples=$(realpath "$(dirname "$0")/..")
folder=$(mktemp -d)
trap 'rm -rf "$folder"' EXIT
cd "$folder"
javac --release 8 -Xlint:-options -d classes "$examples/guide/differs/Differs.java"
"$examples/job.sh" classes >job
failed=0
for form in inspect pass; do
  "$program" run --form=$form job >here || failed=1
  grep -q true here && failed=1
  [ "$(grep -c 'out 0 .* false' here)" = 6 ] || failed=1
  cat here
done
java -cp classes Differs >java
cat java
grep -q false java && failed=1
[ "$(grep -c true java)" = 6 ] || failed=1
[ $failed = 0 ] || echo 'WRONG: not as the guide says'
exit $failed
