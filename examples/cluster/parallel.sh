#!/usr/bin/env bash
# All prefix values on several machines by GNU parallel, and then the merge: parallel.sh FOLDER HOST,HOST.. with hosts
# that ssh reaches, on which this checkout and FOLDER have the same paths. A host of the name : is this machine. A prefix
# value whose machine fails is tried again, on another one where there is one, and goes on from its journal.
set -eu -o pipefail
here=$(cd -- "$(dirname -- "$(readlink -f -- "$0")")" && pwd)
mkdir -p -- "$1"
folder=$(cd -- "$1" && pwd)
parallel --sshlogin "${2:-:}" --jobs 1 --retries 3 --env QSIMH_AMPLITUDES "$here/prefix.sh" '{}' "$folder" ::: 0 1 2 3
exec "$here/merge.sh" "$folder"
