#!/bin/sh
# Tries code bases by the verb `policy` and by a JDK's policy, and compares both with what the guide says in "Where a JDK grants otherwise".
# Usage: examples/guide/bases.sh PROGRAM, with the program that `rt ci` builds (crates/javasec/out/javasec). JDK 17 is needed.
set -eu
program=$(realpath "$1")
examples=$(realpath "$(dirname "$0")/..")
folder=$(realpath "$(mktemp -d)")
trap 'rm -rf "$folder"' EXIT
cd "$folder"
javac -Xlint:none -d . "$examples/guide/bases/Bases.java" 2>/dev/null
mkdir -p real/lib real/a-b
ln -s real link
ln -s "$folder/elsewhere" real/out
mkdir elsewhere
failed=0

# try BASE SOURCE HERE JDK: whether the grant of a code base is for a source, here and in a JDK
try() {
  echo "grant codeBase \"$1\" { permission java.lang.RuntimePermission \"a\"; };" >policy
  printf 'policy policy\ncode %s\nmain M\n' "$2" >job
  here=no
  ! "$program" policy job 2>/dev/null | grep -q '^permission ' || here=yes
  jdk=$(java Bases policy "$2" 2>/dev/null)
  if [ "$here $jdk" = "$3 $4" ]; then
    echo "ok: $1 is for $2: here $here, in a JDK $jdk"
  else
    echo "WRONG: $1 is for $2: here $here, in a JDK $jdk"
    failed=1
  fi
}

try https://h.example.com:443/- https://h.example.com:8443/a/ yes no
try https://h.example.com:8443/- https://h.example.com/a/ no no
try https://h.example.com/- https://h.example.com:8443/a/ yes yes
try 'https://*.example.com/-' https://h.example.com/a/ no yes
try 'https://*/-' https://h.example.com/a/ no yes
try https://127.0.0.1/- https://localhost/a/ no yes
try 'https://h.example.com/a/?q' https://h.example.com/a/ yes no
try 'https://h.example.com/-#x' https://h.example.com/a/ yes no
try "file:$folder/real/a%2Db/-" "file:$folder/real/a-b/" no yes
try "file:$folder/link/-" "file:$folder/real/lib/" no yes
try "file:$folder/real/-" "file:$folder/real/out/" yes no
exit $failed
