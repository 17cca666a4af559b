#!/bin/sh
# Takes what `scc compile` makes of a design through the linters that are installed: Verilator with all warnings, Icarus
# Verilog and Yosys. An error, a latch, or a warning that isn't expected ends with status 1. The warnings that are
# expected, and why they stay, are in docs/TOOLS.md.
#
#   tools/lint.sh                       all examples
#   tools/lint.sh TOP FILE .. [FLAG]    a design of your own; FLAG is --hier, --clocks or --memory
#   SCC names another program: SCC=/usr/local/bin/scc tools/lint.sh
set -u
top=$(cd "$(dirname "$0")/.." && pwd)
scc=${SCC:-$("$top/tools/scc" --program)}
[ -n "$scc" ] || exit 2
expected_always='UNUSEDSIGNAL|CASEINCOMPLETE'
expected_of_icarus='constant selects in always_|process has no sensitivities'
expected_of_yosys='Replacing memory .* with list of registers'
folder=$(mktemp -d)
trap 'rm -rf "$folder"' EXIT
failed=0

fail() {
  echo "  $1"
  sed 's/^/    /' "$folder/said" | head -5
  failed=1
}

has() {
  command -v "$1" >/dev/null
}

lint_verilator() {
  if verilator --lint-only -Wall -Wno-fatal "$1" >"$folder/output" 2>&1; then
    grep '^%Warning' "$folder/output" | grep -vE "^%Warning-($expected_of_verilator):" >"$folder/said"
    kinds=$(grep -oE '^%Warning-[A-Z]+' "$folder/output" | sed 's/^%Warning-//' | sort | uniq -c | awk '{print $2 " " $1}')
    if [ -s "$folder/said" ]; then
      fail "verilator: a warning that isn't expected"
    else
      echo "  verilator  no error$(echo "$kinds" | sed '/./!d; s/^/, /' | tr -d '\n')"
    fi
  else
    mv "$folder/output" "$folder/said"
    fail "verilator: error"
  fi
}

lint_icarus() {
  if iverilog -g2012 -Wall -o /dev/null "$1" >"$folder/output" 2>&1; then
    grep -vE "$expected_of_icarus" "$folder/output" >"$folder/said"
    if [ -s "$folder/said" ]; then fail "icarus: a warning that isn't expected"; else echo "  icarus     no error"; fi
  else
    mv "$folder/output" "$folder/said"
    fail "icarus: error"
  fi
}

# it is given the text that Yosys 0.23 reads too
lint_yosys() {
  "$top/tools/portable.py" "$1" >"$folder/portable.sv"
  if yosys -q -p "read_verilog -sv $folder/portable.sv; hierarchy -check -auto-top; proc; check -assert
      select -assert-none t:\$dlatch t:\$adlatch t:\$dlatchsr t:\$sr" >"$folder/output" 2>&1; then
    grep -vE "$expected_of_yosys" "$folder/output" >"$folder/said"
    registers=$(grep -cE "$expected_of_yosys" "$folder/output")
    if [ -s "$folder/said" ]; then
      fail "yosys: a warning that isn't expected"
    elif [ "$registers" -gt 0 ]; then
      echo "  yosys      no error, no latch, memories as registers $registers"
    else
      echo "  yosys      no error, no latch"
    fi
  else
    mv "$folder/output" "$folder/said"
    fail "yosys: error"
  fi
}

# module, files, a flag
lint() {
  echo "$*" | sed "s|$top/||g"
  module=$1
  shift
  case " $* " in
  # one file has several modules
  *' --hier '*) expected_of_verilator="$expected_always|DECLFILENAME" ;;
  *) expected_of_verilator=$expected_always ;;
  esac
  if ! "$scc" compile "$module" "$@" >"$folder/$module.sv" 2>"$folder/said"; then
    fail "scc: refused"
    return
  fi
  if has verilator; then lint_verilator "$folder/$module.sv"; else echo "  verilator  not installed"; fi
  if has iverilog; then lint_icarus "$folder/$module.sv"; else echo "  icarus     not installed"; fi
  if has yosys; then lint_yosys "$folder/$module.sv"; else echo "  yosys      not installed"; fi
}

case $# in
0)
  make -s -C "$top/examples" list >"$folder/list"
  while read -r top_module source flag; do lint "$top_module" "$top/examples/$source" ${flag:+"$flag"}; done <"$folder/list"
  ;;
1)
  echo "usage: $0 [TOP FILE .. [--hier | --clocks | --memory]]" >&2
  exit 2
  ;;
*) lint "$@" ;;
esac
exit $failed
