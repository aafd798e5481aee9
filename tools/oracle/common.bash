# shellcheck shell=bash
# Shared by tools/oracle/build, tools/oracle/answers, tools/oracle/definitions, tools/bench/run and tools/differential/run, which
# source this file and have their own folder in $here.

# The build folder lies outside the tree, so that no line of the original gets into it.
# shellcheck disable=SC2034
build=$(realpath -m "${WARPBOULDER_ORACLE_BUILD:-/tmp/warpboulder-oracle-$(id -u)}")

fail() {
  printf 'tools/%s/%s: %s\n' "${here##*/}" "${0##*/}" "$*" >&2
  exit 1
}

# Whether a file can be made in the folder; makes the folder.
can_write() {
  local probe
  mkdir -p "$1" 2>/dev/null && probe=$(mktemp -p "$1" .probe.XXXXXX 2>/dev/null) && rm "$probe"
}

# Copies a file unless the same bytes are there, so that cargo builds again only what has changed.
place() {
  cmp -s "$1" "$2" && return
  mkdir -p "$(dirname "$2")"
  cp "$1" "$2"
}
