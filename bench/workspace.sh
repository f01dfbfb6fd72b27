# Read by the scripts of this folder with `.`; not run by itself.
#
# `program NAME CRATE..` makes a program of the text on standard input over these crates and those below them, in a
# temporary workspace, proves and builds it, and runs it. What the program prints comes on standard output.
# `row NAME FIGURE UNIT` prints one row of the table that `bench/run` gathers.
set -eu
top=$(cd "$(dirname "$0")/.." && pwd)
work=$(mktemp -d)
trap 'rm -rf "$work"' EXIT

row() { printf '%s\t%s\t%s\n' "$1" "$2" "$3"; }

# These crates and all below them, of this repository.
below() {
  awk -F: -v wanted="$*" '
    /^[a-z]/ { split($1, head, " "); uses[head[1]] = $2; line[head[1]] = $0 }
    function visit(name,  list, n, i) {
      if (!(name in uses) || name in seen) return
      seen[name] = 1; n = split(uses[name], list, " ")
      for (i = 1; i <= n; i++) visit(list[i])
      print line[name]
    }
    END { n = split(wanted, all, " "); for (k = 1; k <= n; k++) visit(all[k]) }' "$top/crates.txt"
}

program() {
  local name=$1 crate part; shift
  mkdir -p "$work/crates/$name/src"
  cat > "$work/crates/$name/src/main.rt"
  below "$@" > "$work/crates.txt"
  while IFS=: read -r crate _; do
    mkdir -p "$work/crates/$crate"
    for part in src specs proofs; do
      [ ! -d "$top/crates/$crate/$part" ] || cp -r "$top/crates/$crate/$part" "$work/crates/$crate/"
    done
  done < "$work/crates.txt"
  echo "$name: $*" >> "$work/crates.txt"
  (cd "$work/crates/$name" && rt run 2> "$work/log") || { tail -20 "$work/log" >&2; return 1; }
}
