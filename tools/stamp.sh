# shellcheck shell=bash
# Which sources and which toolchain a program was built of, and how a program that was built is put in its place. The
# commands at the top and the gate take this file; none of it runs by itself.

# sources_line TOP: a checksum of all sources. Each counts with its path, so one that is gone makes another sum.
sources_line() (
  set -o pipefail
  unset CDPATH
  cd -- "$1" || exit 1
  export LC_ALL=C
  shopt -s nullglob
  find HANDLES crates.txt crates/*/src crates/*/specs crates/*/proofs -type f -print0 |
    sort -z | xargs -0 sha256sum | sha256sum
)

# libraries_line TOP: a checksum of all libraries that a build left beside the sources
libraries_line() (
  set -o pipefail
  unset CDPATH
  cd -- "$1" || exit 1
  find crates -path 'crates/*/out/rlib/*' -type f -print0 | LC_ALL=C sort -z | xargs -0 -r sha256sum | sha256sum
)

# toolchain_line: the toolchain's own line
toolchain_line() { rt version </dev/null; }

# is_stamped PROGRAM SOURCES: the program was built of these sources and by the toolchain that is here. Where no rt is
# here, there is no other toolchain.
is_stamped() {
  [ -x "$1" ] && [ -r "$1.stamp" ] || return 1
  [ "$(stamp_line "$1" sources)" = "$2" ] || return 1
  ! command -v rt >/dev/null || [ "$(stamp_line "$1" toolchain)" = "$(toolchain_line)" ]
}

# The level that the gate builds for, which each processor of the toolchain has
base=x86-64-v2

# level_of FILE: x86-64-v3 where each processor that the file, in the form of /proc/cpuinfo, names has what that level
# asks for, and else the gate's
level_of() {
  awk -v base="$base" '
    BEGIN { count = split("avx avx2 bmi1 bmi2 f16c fma abm movbe xsave", asked, " ") }
    $1 == "flags" {
      seen++
      for (k = 1; k <= count; k++) lacks += !index($0 " ", " " asked[k] " ")
    }
    END { print seen && !lacks ? "x86-64-v3" : base }' "$1" 2>/dev/null || echo "$base"
}

# stamp_line PROGRAM NAME: what the stamp says: sources, toolchain, level (that it was built for), libraries or wanted
# (the level that was last asked for)
stamp_line() {
  case $2 in
    sources) sed -n 1p "$1.stamp" ;;
    toolchain) sed -n 2p "$1.stamp" ;;
    level) sed -n 3p "$1.stamp" ;;
    libraries) sed -n 4p "$1.stamp" ;;
    wanted) sed -n 5p "$1.stamp" ;;
  esac
}

# want PROGRAM LEVEL: notes that the level was asked for
want() { { sed -n 1,4p "$1.stamp" && echo "$2"; } >"$1.stamp.new" && mv -f -- "$1.stamp.new" "$1.stamp"; }

# put_in_place MADE PROGRAM SOURCES TOOLCHAIN LEVEL LIBRARIES: one rename puts the program in place. The stamp goes before and
# comes after, so a stop in between leaves a program without one.
put_in_place() {
  cp -- "$1" "$2.new" && printf '%s\n' "$3" "$4" "$5" "$6" "$5" >"$2.stamp.new" &&
    rm -f -- "$2.stamp" && mv -f -- "$2.new" "$2" && mv -f -- "$2.stamp.new" "$2.stamp"
}
