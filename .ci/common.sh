# shellcheck shell=bash disable=SC2034
# What the checks have in common. Each stands in a file of .ci/checks.d, runs at the top of the repository, takes this
# file first and ends with `finish`.
set -u -o pipefail
unset CDPATH
export LC_ALL=C

# The programs as the toolchain's gate built them; the variables let a check be tried on other ones.
program=${QSIMH_PROGRAM:-$PWD/crates/qsimh_amplitudes/out/qsimh_amplitudes}
merge=${QSIMH_MERGE:-$PWD/crates/qsimh_merge/out/qsimh_merge}
check=${0##*/}
failed=0
work=$(mktemp -d) || exit 1
chmod 755 "$work"
trap 'rm -rf "$work"' EXIT

fail() {
  printf 'checks: %s: %s\n' "$check" "$*"
  failed=1
}

skipped() { printf 'checks: %s: left out: %s\n' "$check" "$*"; }

# has WHAT TEXT FILE: the file holds exactly the bytes of the text
has() { printf '%s' "$2" | cmp -s - "$3" || fail "$1"; }

finish() { exit "$failed"; }
