#!/usr/bin/env bash
# Merges the journals of the example: merge.sh FOLDER prints the amplitudes of the whole circuit.
set -eu -o pipefail
here=$(cd -- "$(dirname -- "$(readlink -f -- "$0")")" && pwd)
program=${QSIMH_MERGE:-$here/../../qsimh_merge}
exec "$program" "$1"/[0-3].journal
