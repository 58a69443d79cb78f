#!/usr/bin/env bash
# cost.sh PROGRAM [TURNS]: what checks and calls take on a JVM, by the original classes under a SecurityManager, which walks frames, and by the
# moved ones, with one policy. The least of TURNS processes each (3 where none is given), by turns, of the thread's processor time.
# PROGRAM is what `rt ci` built (crates/javasec/out/javasec); javac and java have to be there, java of a version that still walks (17 to 23).
set -eu
if [ $# -lt 1 ] || [ $# -gt 2 ]; then
    sed -n 's/^# //p' "$0" >&2
    exit 2
fi
program=$(realpath "$1")
turns=${2:-3}
here=$(cd "$(dirname "$0")" && pwd)
work=$(mktemp -d)
trap 'rm -rf "$work"' EXIT
cd "$work"
javac -d rt "$here"/sps/*.java "$here"/cost/sps/Timed.java
cat >app.policy <<END
grant codeBase "file:$work/a/" { permission java.util.PropertyPermission "x.*", "read"; };
grant codeBase "file:$work/b/" { permission java.util.PropertyPermission "x.*", "read"; permission java.util.PropertyPermission "y", "read"; };
END
{
    cat app.policy
    echo "grant codeBase \"file:$work/rt/\" { permission java.security.AllPermission; };"
} >jvm.policy

javac -g:none -nowarn -Xlint:-options --release 8 -d a "$here/cost/Cost.java"
mkdir b
mv a/Other.class b
printf 'policy app.policy\ncode file:%s/a/\nclass a/Cost.class\nclass a/Step.class\ncode file:%s/b/\nclass b/Other.class\nmain Cost\n' \
    "$work" "$work" >job
"$program" rewrite job out >line
"$program" policy out/job >grants

# row NAME WHAT DEPTH ROUNDS ROUNDS: a line; the hundreds of rounds of the original classes and of the moved ones
row() {
    : >old
    : >new
    for _ in $(seq "$turns"); do
        java -Djava.security.manager -Djava.security.policy==jvm.policy -cp rt:a:b sps.Timed "$2" "$3" "$4" Cost >>old 2>err
        java -cp rt sps.Timed "$2" "$3" "$5" out/job grants >>new
    done
    echo "$1 $3 $(sort -n old | head -1) $(sort -n new | head -1)" |
        awk '{ printf "%-26s depth %5d  original %10.1f ns  moved %8.1f ns  moved to original %.4f\n", $1, $2, $3, $4, $4 / $3 }'
}

for depth in 10 100 1000; do row one_permission 0 $depth $((5000 / depth)) 50000; done
for depth in 10 100 1000; do row two_permissions 1 $depth $((5000 / depth)) 50000; done
for depth in 10 100; do row new_permission 2 $depth $((5000 / depth)) 20000; done
for depth in 10 1000; do row getContext 3 $depth $((5000 / depth)) 50000; done
row static_call 4 10 100000 100000
row call_across 5 10 100000 100000
row interface_calls 6 10 100000 100000
row recursion 7 10 100000 100000
