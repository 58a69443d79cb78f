#!/usr/bin/env bash
# statuses.sh PROGRAM: what the launcher says, and its status, where it runs nothing. PROGRAM is what `rt ci` built
# (crates/javasec/out/javasec); javac and java, 17 or later, have to be there. Status 1: some case isn't as it is to be.
set -eu
if [ $# -ne 1 ]; then
    sed -n 's/^# //p' "$0" >&2
    exit 2
fi
program=$(realpath "$1")
here=$(cd "$(dirname "$0")" && pwd)
work=$(mktemp -d)
trap 'rm -rf "$work"' EXIT
cd "$work"
cp -r "$here/../../crates/tests_runs/data/vault"* .
javac -d rt "$here"/sps/*.java
"$program" rewrite vault.job out >line
"$program" policy out/job >grants
bad=0

# refuses SENTENCE WORD..: nothing on standard output, status 2, and this sentence
refuses() {
    local sentence=$1 status=0
    shift
    java -XX:TieredStopAtLevel=1 -cp rt sps.Main "$@" >told 2>said || status=$?
    if [ $status -eq 2 ] && [ ! -s told ] && [ "$(cat said)" = "$sentence" ]; then echo "as it is to be: $sentence"; else
        echo "NOT as it is to be: $* gave $status, $(head -3 said)"
        bad=1
    fi
}

usage='usage: java -cp rt sps.Main [--threads] [--quiet] JOB GRANTS'
refuses "$usage"
refuses "$usage" --fast out/job grants
refuses "none isn't there" none grants
refuses "none isn't there" out/job none
refuses "grants, line 1: \"$(head -1 grants)\" is no line of a job there" grants out/job
refuses "out/job is no list of \`javasec policy\`: \"$(head -1 out/job)\"" out/job out/job
refuses 'main app/Main has no `main` that takes a context: `javasec rewrite` makes it, and OUT/job names it' vault.job grants
sed 's/srv.app/srv\/web/' grants >others
refuses "others isn't what \`javasec policy\` lists for this job: \"domain 0 file:///srv/web/\"" out/job others
head -1 grants >fewer
refuses 'fewer lists 1 domains, and the job has 2' out/job fewer
sed 's/d1.lib.Vault.class/d1\/lib\/None.class/' out/job >lost
refuses "out/d1/lib/None.class isn't there" lost grants
sed 's/d1.lib.Vault.class/job/' out/job >text
refuses 'out/job is no class file that can be read' text grants
printf 'main app/Main\nschedule 4294967296\n' >large
refuses 'large is no job: a number of its schedule is above 4294967295' large grants
printf '\377' >bytes
refuses "bytes isn't UTF-8" bytes grants
exit $bad
