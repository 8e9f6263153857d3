#!/usr/bin/env bash
# All prefix values on this machine, one after the other, and then the merge: loop.sh FOLDER
set -eu -o pipefail
here=$(cd -- "$(dirname -- "$(readlink -f -- "$0")")" && pwd)
mkdir -p -- "$1"
for w in 0 1 2 3; do
  "$here/prefix.sh" "$w" "$1"
done
exec "$here/merge.sh" "$1"
