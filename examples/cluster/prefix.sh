#!/usr/bin/env bash
# Computes one prefix value of the example, over its journal: prefix.sh W FOLDER makes FOLDER/W.journal. It may be
# stopped at any moment and started again, on another machine too; what was recorded is not computed again.
set -eu -o pipefail
here=$(cd -- "$(dirname -- "$(readlink -f -- "$0")")" && pwd)
program=${QSIMH_AMPLITUDES:-$here/../../qsimh_amplitudes}
read -ra words <"$here/words"
exec "$program" "${words[@]}" -w "$1" -j "$2/$1.journal" -o /dev/null
