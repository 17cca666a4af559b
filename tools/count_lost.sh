#!/bin/sh
# Prints, for each crate, how many places answer lost(): states that the compiler holds to be impossible and that no proof
# excludes yet. Run it at the top of the repository. A number falls where a proof excludes a place, and rises only where one
# that was passed over in silence, as by a saturated number, answers lost() now.
set -eu
cd "$(dirname "$0")/.."
total=0
for crate in crates/*/; do
  name=$(basename "$crate")
  count=$(grep -rhoE '\blost\(\)' "$crate/src" --include='*.rt' 2>/dev/null | wc -l)
  # its own definition is none
  if [ "$name" = scc_base ]; then
    count=$((count - 1))
  fi
  if [ "$count" -gt 0 ]; then
    printf '%-20s%5d\n' "$name" "$count"
    total=$((total + count))
  fi
done
printf '%-20s%5d\n' all "$total"
