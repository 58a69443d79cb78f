#!/usr/bin/env bash
# compare.sh PROGRAM [N [SEED]]: runs jobs by `run --form=plain` and on a JVM, and compares lines and statuses: those of `crates/tests_runs/data`,
# the guide's among them, then N made ones (made.py, from SEED; 300 and 1 where none are given). Then it measures (cost.sh), unless N is given.
# PROGRAM is what `rt ci` built (crates/javasec/out/javasec); javac, java (17 or later) and python3 have to be there.
# What isn't promised is counted apart: jobs that `rewrite` refuses, that meet a bound, or whose classes no compiler makes. Status 1: some differ.
set -eu
if [ $# -lt 1 ] || [ $# -gt 3 ]; then
    sed -n 's/^# //p' "$0" >&2
    exit 2
fi
program=$(realpath "$1")
here=$(cd "$(dirname "$0")" && pwd)
work=$(mktemp -d)
trap 'rm -rf "$work"' EXIT
export program work

# one FOLDER JOB: a line with what came of it, whether it has privileges, limits, kept contexts or threads, and its name
one() {
    cd "$1"
    local name=${2%.job} status=0 got=0 uses=none classes
    mapfile -t classes < <(sed -n 's/^class //p' "$2")
    if [ ${#classes[@]} -gt 0 ] && grep -qa -e doPrivileged -e getContext -e java/lang/Thread "${classes[@]}"; then uses=uses; fi
    if ! "$program" rewrite "$2" "out-$name" >"$name.told" 2>/dev/null; then
        echo "refused $uses $name"
        return
    fi
    "$program" policy "out-$name/job" >"$name.grants" 2>/dev/null
    "$program" run --form=plain "out-$name/job" >"$name.told" 2>/dev/null || status=$?
    if [ $status -eq 3 ]; then
        echo "refused $uses $name"
        return
    fi
    if [ $status -ne 0 ] && [ $status -ne 1 ] && [ $status -ne 6 ] || grep -q '^throw .*StackOverflowError$' "$name.told"; then
        echo "bound $uses $name"
        return
    fi
    grep -v '^throw ' "$name.told" >"$name.want" || true
    java -XX:TieredStopAtLevel=1 -XX:+UseSerialGC -XX:-ShowCodeDetailsInExceptionMessages -cp "$work/rt" sps.Main "out-$name/job" "$name.grants" \
        >"$name.got" 2>"$name.err" || got=$?
    if cmp -s "$name.want" "$name.got" && [ $status -eq $got ]; then
        echo "same $uses $name"
    elif [ -e "$name.uncompiled" ]; then
        echo "uncompiled $uses $name"
    else
        echo "differ $uses $name: statuses $status and $got; $(diff "$name.want" "$name.got" | head -2 | tail -1) $(head -1 "$name.err")"
    fi
}
export -f one

# all FOLDER: each job of a folder, four at once
all() { ls "$1" | grep '\.job$' | xargs -P 4 -I{} bash -c 'one "$@"' one "$1" {}; }

javac -d "$work/rt" "$here"/sps/*.java
cp -r "$here/../../crates/tests_runs/data" "$work/data"
rm -f "$work/data/audit.job"
# No compiler makes its class: it calls an interface's method by invokespecial, and HotSpot remembers that this failed before it looks for null.
: >"$work/data/own_face.uncompiled"
python3 "$here/made.py" "${3:-1}" "${2:-300}" "$work/made"
(cd "$work/made" && ls m*/Main.java | xargs -n 80 -P 4 javac -g:none -nowarn -Xlint:-options -encoding UTF-8 --release 8 -d classes)
{
    all "$work/data"
    all "$work/made"
} >"$work/verdicts"
grep -v '^same ' "$work/verdicts" | grep -v '^refused uses m[0-9]*$' || true
awk '{ n[$1]++; if ($2 == "uses") u[$1]++ }
    END { for (v in n) printf "%d jobs %s, of them %d with privileges, limits, kept contexts or threads\n", n[v], v, u[v] }' "$work/verdicts"
cat "$work"/data/*.got "$work"/made/*.got | awk '
    { n[$1]++ }
    END { printf "lines of the JVM: grant %d deny %d out %d uncaught %d\n", n["grant"], n["deny"], n["out"], n["uncaught"] }'
if [ $# -eq 1 ]; then "$here/cost.sh" "$program"; fi
! grep -q '^differ ' "$work/verdicts"
