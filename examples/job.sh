#!/bin/sh
# Writes a job for folders of class files to standard output, a code source a folder.
# Usage: examples/job.sh [-p POLICY] [-m MAIN] FOLDER|URL=FOLDER..
# MAIN is the class whose `main` is run, with slashes. Where it isn't said, the one class is taken that looks as if it had one.
# A folder's code source has its URL, else that of the folder's place on the disk. A URL begins with a scheme, ends in `/` and has no `=`.
# Where something is wrong nothing is written.
set -eu
policy= main=
while getopts p:m: option; do
  case $option in
    p) policy=$OPTARG ;;
    m) main=$OPTARG ;;
    *) exit 2 ;;
  esac
done
shift $((OPTIND - 1))
[ $# -gt 0 ] || { sed -n '2,6s/^# //p' "$0" >&2; exit 2; }

# is_named ARGUMENT: it is URL=FOLDER
is_named() {
  url=${1%%=*}
  [ "$url" != "$1" ] || return 1
  case $url in
    *:*) ;;
    *) return 1 ;;
  esac
  case ${url%%:*} in
    '' | [!A-Za-z]* | *[!A-Za-z0-9+.-]*) return 1 ;;
  esac
}

# folder_of ARGUMENT, url_of ARGUMENT
folder_of() {
  if is_named "$1"; then echo "${1#*=}"; else echo "$1"; fi
}
url_of() {
  if is_named "$1"; then
    echo "${1%%=*}"
  else
    echo "file:$(cd "$1" && pwd -P | sed 's/%/%25/g; s/#/%23/g; s/?/%3F/g; s/\/$//')/"
  fi
}

# the names of classes below a folder, inner ones aside, whose files hold the name and the descriptor of a `main`
mains() {
  (cd "$1" && find . -name '*.class' ! -name '*$*' -exec grep -lF '([Ljava/lang/String;)V' {} + | while IFS= read -r file; do
    ! grep -qF main "$file" || echo "$file"
  done | sed 's/^\.\///; s/\.class$//')
}

for argument; do
  folder=$(folder_of "$argument")
  [ -d "$folder" ] || { echo "$folder is no folder" >&2; exit 1; }
  case $(url_of "$argument") in
    */) ;;
    *) echo "$argument: a code source's URL ends in /" >&2; exit 1 ;;
  esac
done
if [ -z "$main" ]; then
  main=$(for argument; do mains "$(folder_of "$argument")"; done)
  case $main in
    '') echo "no class looks as if it had a main; say it by -m" >&2; exit 1 ;;
    *'
'*) echo "several classes look as if they had a main; say one by -m:" >&2; echo "$main" >&2; exit 1 ;;
  esac
fi
[ -z "$policy" ] || echo "policy $policy"
for argument; do
  folder=$(folder_of "$argument")
  echo "code $(url_of "$argument")"
  find "${folder%/}/" -name '*.class' | LC_ALL=C sort | sed 's/^/class /'
done
echo "main $main"
