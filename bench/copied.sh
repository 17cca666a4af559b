# What the benches that build a program of their own share; they read it by `source`, with the repository's folder in `top`.

# Copies crates, and all that they stand on, with their lines of crates.txt: to which folder, crates
copied() {
  local into=$1 crates crate
  shift
  crates=$(needed "$@")
  mkdir -p "$into/crates"
  for crate in $crates; do
    cp -r "$top/crates/$crate" "$into/crates"
    grep "^$crate:" "$top/crates.txt" >>"$into/crates.txt"
  done
}

# these crates of the repository and all that they stand on, in the order of crates.txt
needed() {
  awk -v wanted="$*" '
    { name = $1; sub(/:$/, "", name); order[NR] = name; row[name] = $0 }
    END {
      waiting = split(wanted, names, " ")
      for (i = 1; i <= waiting; i++) {
        if (names[i] in seen || !(names[i] in row)) continue
        seen[names[i]] = 1
        parts = split(row[names[i]], below, " ")
        for (k = 2; k <= parts; k++) names[++waiting] = below[k]
      }
      for (i = 1; i <= NR; i++) if (order[i] in seen) print order[i]
    }' "$top/crates.txt"
}
