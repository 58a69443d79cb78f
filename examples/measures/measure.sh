#!/usr/bin/env bash
# measure.sh PROGRAM [FORM]: what the programs of this folder take by a built javasec, in processor seconds, and for each thing that they
# repeat. FORM is inspect, where none is given, or pass.
set -eu
program=$(realpath "$1")
form=${2:-inspect}
here=$(cd "$(dirname "$0")" && pwd)
work=$(mktemp -d)
trap 'rm -rf "$work"' EXIT
cd "$work"
TIMEFORMAT=%U

# the least processor time of three runs
least() {
    for _ in 1 2 3; do
        { time "$@" >out.txt 2>err.txt || true; } 2>&1
    done | sort -n | head -1
}

# row NAME DEPTH TIMES UNIT ENTRIES: a program, what DEPTH is, how often it repeats what, and how many entries the policy has
row() {
    rm -f ./*.class ./*.java
    sed "s/DEPTH/$2/" "$here/$1.java" >"$1.java"
    javac -g:none -nowarn --release 8 "$1.java" 2>/dev/null
    {
        echo 'grant {'
        for i in $(seq 1 "$5"); do echo "permission java.util.PropertyPermission \"name.$i\", \"read\";"; done
        echo 'permission java.util.PropertyPermission "x", "read";'
        echo '};'
    } >app.policy
    {
        printf 'policy app.policy\ndepth 10000\nheap 16777216\nsteps 100000000000\ncode file:/a/\n'
        for c in *.class; do [ "$c" = Other.class ] || echo "class $c"; done
        [ ! -e Other.class ] || printf 'code file:/b/\nclass Other.class\n'
        echo "main $1"
    } >job
    t=$(least "$program" run --form="$form" job)
    jvm=-
    if [ "$4" = instruction ]; then jvm=$(least java -Xint -cp . "$1"); fi
    awk -v n="$1" -v d="$2" -v t="$t" -v k="$3" -v u="$4" -v j="$jvm" -v e="$(tail -1 out.txt)" \
        'BEGIN { printf "%-12s %7s  %8.3f s  %10.1f ns a %s  java -Xint %s s  %s\n", n, d, t, t * 1e9 / k, u, j, e }'
}

row StaticInt 0 40000000 instruction 0
row Locals 0 44000000 instruction 0
row ObjectField 0 44000000 instruction 0
row StaticCall 0 40000000 instruction 0
row Across 0 40000000 instruction 0
row VirtualCall 0 39000000 instruction 0
row InterfaceCall 0 39000000 instruction 0
row Objects 0 4000000 object 0
row Appends 0 2000000 append 0
for depth in 10 100 1000 10000; do row Checks $depth 20000 check 0; done
for depth in 10 100 1000 10000; do row Privileged $depth 20000 check 0; done
row Snapshots 1000 100000 snapshot 0
row Nested 60 60 privilege 0
row Nested 900 900 privilege 0
row Contexts 100000 100000 context 0
row Privileges 0 20000 check 0
row Privileges 100000 20000 check 0
row Entries 100 200000 check 100
row Entries 57000 200000 check 57000
row Yields 0 1000000 switch 0
row ManyYields 1000 1000000 switch 0
row ManyThreads 20000 20000 thread 0
row Joins 10000 10000 thread 0
