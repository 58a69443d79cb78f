#!/bin/sh
# Runs the guide's jobs, all at once, by `rt try`, and compares what they write. Nothing is proved. It takes some minutes, and says
# nothing before its end.
# Usage: examples/guide.sh
set -eu
top=$(cd "$(dirname "$0")/.." && pwd)
data=$top/crates/tests_runs/data
cases=$(mktemp -d)
trap 'rm -rf "$cases"' EXIT

# add NAME TEXT WORD..: a command, and the file with what it is to write
add() {
  name=$1 text=$2
  shift 2
  : >"$cases/$name"
  printf '%s\n' "$@" >"$cases/$name.args"
  cp "$data/$text" "$cases/$name.stdout"
}

add audit audit.text policy audit.job
add plugin plugin.text run --form=inspect plugin.job
add less less.text run --form=inspect less.job
add less_granted less_granted.text policy less.job
add vault vault.text run --form=inspect vault.job
add rewritten memory/rewritten_3.text rewrite vault.job out

set --
for file in audit.job audit.policy plugin.job plugin.policy less.job less.policy Main.class 'Main$1.class' \
  vault.job vault.policy vault/app/Main.class vault/lib/Vault.class 'vault/lib/Vault$1.class'; do
  set -- "$@" --data "$file=$data/$file"
done
cd "$top/crates/javasec"
rt try "$@" --cases "$cases"
