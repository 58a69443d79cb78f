#!/bin/sh
# Compiles the guide's plug-in, writes a job for its class files, checks and runs it, in a new folder.
# Usage: examples/guide/own.sh PROGRAM, with the program that `rt ci` builds (crates/javasec/out/javasec).
set -eu
program=$(realpath "$1")
examples=$(realpath "$(dirname "$0")/..")
folder=$(mktemp -d)
trap 'rm -rf "$folder"' EXIT
cd "$folder"
javac --release 8 -d classes "$examples/guide/app/Main.java"
echo 'grant { permission java.io.FilePermission "/home/u/-", "read"; };' >app.policy
"$examples/job.sh" -p app.policy classes >job
cat job
"$program" check job
"$program" run --form=inspect job
"$program" run job
