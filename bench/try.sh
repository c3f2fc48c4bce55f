# Sourced by a benchmark whose program is not of crates.txt: try_program NAME CRATES WORDS.. puts bench/NAME/*.txt as the crate NAME, over
# CRATES and all that these stand on, into a repository of its own for the time, where `rt try`, with these words, compiles it with checks in
# place of a proof and runs it.
try_program() {
  local name=$1 own=$2 here work file crate
  shift 2
  here=$(cd "$(dirname "${BASH_SOURCE[0]}")/.." && pwd)
  work=$(mktemp -d)
  trap "rm -rf '$work'" EXIT
  mkdir -p "$work/crates/$name/src"
  cp "$here/HANDLES" "$work"
  for file in "$here/bench/$name"/*.txt; do
    cp "$file" "$work/crates/$name/src/$(basename "$file" .txt).rt"
  done
  awk -v own="$own" '
    /^[a-z]/ { split($0, halves, ":"); sub(/ .*/, "", halves[1]); below[halves[1]] = halves[2]; line[halves[1]] = $0 }
    function add(name,   parts, i, n) {
      if (!(name in below) || (name in seen)) return
      seen[name] = 1
      n = split(below[name], parts, " ")
      for (i = 1; i <= n; i++) add(parts[i])
      print line[name]
    }
    END { n = split(own, first, " "); for (i = 1; i <= n; i++) add(first[i]) }' "$here/crates.txt" >"$work/crates.txt"
  sed 's/[ :].*//' "$work/crates.txt" | while read -r crate; do
    tar -C "$here/crates" --exclude="$crate/out" -cf - "$crate" | tar -C "$work/crates" -xf -
  done
  echo "$name: $own" >>"$work/crates.txt"
  (cd "$work/crates/$name" && rt try "$@")
}
