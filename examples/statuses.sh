#!/bin/sh
# Runs the program where a status alone says too little, and compares its status and its sentence on standard error.
# Usage: examples/statuses.sh PROGRAM, with the program that `rt ci` builds (crates/javasec/out/javasec).
set -u
program=$(realpath "$1") || exit 1
cd "$(dirname "$0")/../crates/tests_runs/data" || exit 1
failed=0

# check STATUS SENTENCE WORD..: standard output is left alone
check() {
  status=$1 sentence=$2
  shift 2
  said=$("$program" "$@" 2>&1 >"$out")
  got=$?
  if [ "$got" = "$status" ] && [ "$said" = "$sentence" ]; then
    echo "ok: $* ends with $got: $said"
  else
    echo "WRONG: $* ends with $got: $said"
    failed=1
  fi
}

commands='the commands are `run JOB`, `check JOB`, `rewrite JOB OUT`, `policy JOB` and `gen SEED SIZE`, where SIZE is 1 to 1000; the first two take --form=inspect, --form=pass or --form=plain'
lost='javasec: audit.policy, line 19: `${clock.zone}` is no property of the job, so the entry is left out
javasec: audit.policy, line 25: a signer is asked for, and class files of a job have none, so the grant gives nothing
javasec: audit.policy: "file:/opt/app/plugins/*" stands for no code source of the job, so its grant gives nothing
javasec: audit.policy: com.example.ClockPermission "set" is of no class of permissions that is known here, so the entry grants nothing
javasec: audit.policy: java.util.PropertyPermission "user.timezone": "rread" are no actions of it, so the entry grants nothing'
out=/dev/null
check 0 "$lost" policy audit.job
check 0 '' check app.job
check 2 "javasec: there is no word, or one that is no UTF-8; $commands"
check 2 "javasec: a word is missing; $commands" rewrite job
check 7 'javasec: nowhere could not be read: nothing is there' rewrite nowhere out
check 9 'javasec: /dev/null/d0/app/Main.class could not be stored: a file stands where a folder is wanted' rewrite plugin.job /dev/null
check 7 'javasec: nowhere could not be read: nothing is there' policy nowhere
check 7 'javasec: nowhere could not be read: nothing is there' run --form=inspect -- nowhere
check 7 'javasec: nowhere could not be read: nothing is there' check nowhere
check 7 'javasec: memory could not be read: it is a folder' policy memory
check 7 'javasec: audit.job/job could not be read: a file stands where a folder is wanted' policy audit.job/job
check 7 'javasec: \u001b[31m could not be read: nothing is there' policy "$(printf '\033[31m')"
long=$(mktemp) && truncate -s 67108865 "$long"
check 7 "javasec: $long could not be read: it has more than 67,108,864 bytes" policy "$long"
rm "$long"
out=/dev/full
check 8 'javasec: the output could not be written' policy audit.job

# a closed standard error changes no status
"$program" policy nowhere 2>&-
[ $? = 7 ] || { echo 'WRONG: a closed standard error changes the status'; failed=1; }

# ends STATUS WORD..: what is said isn't looked at
ends() {
  status=$1
  shift
  "$program" "$@" >/dev/null 2>&1
  got=$?
  if [ "$got" = "$status" ]; then
    printf 'ok: %s ends with %s\n' "$*" "$got"
  else
    printf 'WRONG: %s ends with %s\n' "$*" "$got"
    failed=1
  fi
}

# steps that suffice by frames don't suffice in the form pass
ends 0 run --form=inspect counts_25_steps.job
ends 4 run counts_25_steps.job
ends 0 run counts_26_steps.job

# a folder OUT of its own, one whose path has a line feed, and the job's own
folder=$(mktemp -d) || exit 1
trap 'rm -rf "$folder"' EXIT
cp ../../javasec/data/job ../../javasec/data/app.policy ../../javasec/data/Main.class "$folder"
cd "$folder" || exit 1
lines=$(printf 'o\nut')
ends 0 rewrite job out
ends 0 run --form=plain out/job
ends 0 rewrite job "$lines"
[ "$("$program" check --form=plain "$lines/job" 2>/dev/null)" = 'refused job 4' ] || { echo 'WRONG: a line feed in OUT'; failed=1; }
ends 0 check job
ends 0 rewrite job .
ends 3 check job
ends 0 check --form=plain job
exit $failed
