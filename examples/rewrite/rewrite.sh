#!/bin/sh
# Rewrites the job of this folder in a new one, checks and runs what was stored, and shows one method before and after.
# Usage: examples/rewrite/rewrite.sh PROGRAM, with the program that `rt ci` builds (crates/javasec/out/javasec).
set -eu
program=$(realpath "$1")
data=$(realpath "$(dirname "$0")/../../crates/tests_runs/data")
folder=$(mktemp -d)
trap 'rm -rf "$folder"' EXIT
cp -r "$data/vault.job" "$data/vault.policy" "$data/vault" "$folder"
cd "$folder"

# show WORD..: says the command, and runs it
show() {
  echo "\$ javasec $*"
  "$program" "$@"
}

show run --form=inspect vault.job
show rewrite vault.job out
show check --form=plain out/job
show run --form=plain out/job
show run vault.job
echo '$ cat out/job'
cat out/job
if command -v javap >/dev/null; then
  for class in vault/lib/Vault.class out/d1/lib/Vault.class; do
    echo "\$ javap -c $class"
    javap -c "$class" | sed -n '/ open(/,/areturn/p'
  done
fi
