#!/usr/bin/env bash
# Prints how long `scc compile` takes on sources of about half the most tokens and of nearly the most that are refused behind the static
# stage, since the top's constructor has a parameter, so that everything up to the plain program is done and nothing behind it: members,
# initialisers, labels of a `switch`, local variables, statements, loops, calls, functions, classes, instances and specialised bodies, and
# chains of constants, types and arrows, each of which needs the one before it. A stack of 8 MiB has to do. Fails where one is not refused
# so, or where twice the source takes more than 2.2 times the processor time, however often both are measured again (four times at most).
set -euo pipefail
cd "$(dirname "$0")/.."
ulimit -s 8192
source bench/timed.sh

# what stands before, a piece for each number (# is the number, ~ the one before), what stands between, the same for a second piece, and
# what stands behind (# is the last number)
text() {
  awk -v n="$1" -v a="$2" -v p="$3" -v b="$4" -v q="$5" -v c="$6" '
    function rows(piece, i, last,  between, less, marks, at, k) {
      marks = split(piece, between, /[#~]/) - 1
      for (k = 1; k <= marks; k++) { at += length(between[k]) + 1; less[k] = substr(piece, at, 1) == "~" }
      for (; i <= last; i++) {
        for (k = 1; k <= marks; k++) printf "%s%d", between[k], i - less[k]
        printf "%s", between[marks + 1]
      }
    }
    BEGIN {
      printf "%s", a; if (p != "") rows(p, 1, n)
      printf "%s", b; if (q != "") rows(q, 1, n)
      rows(c, n, n)
    }'
}

failed=0
while IFS='@' read -r name most before first between second behind; do
  half=0
  for n in $((most / 2)) "$most"; do
    file=$work/$n.cpp
    text "$n" "$before" "$first" "$between" "$second" "$behind" >"$file"
    status=0
    said=$("$program" compile T "$file" 2>&1 >/dev/null) || status=$?
    [[ $status == 1 && $said == *": E404 "* ]] || { echo "$name: status $status: $said"; failed=1; continue; }
    took=$(timed 5 T "$file")
    # other work on the machine disturbs some measurements more than others: both are measured again
    for ((again = 0; again < 4 && half > 0 && took * 10 > half * 22; again++)); do
      less=$(timed 5 T "$work/$((most / 2)).cpp")
      if ((less < half)); then half=$less; fi
      less=$(timed 5 T "$file")
      if ((less < took)); then took=$less; fi
    done
    printf '%-24s %7d %8d us\n' "$name" "$n" "$took"
    ((half == 0 || took * 10 <= half * 22)) || { echo "$name: not linear"; failed=1; }
    half=$took
  done
done <<'SHAPES'
members@20000@struct T { T(int k) : z(0)@, c#(#)@ {} int z; @int c#; @};
objects@16000@struct C { C() {} }; struct T { T(int k) {} @C c#; @@@};
labels@40000@struct T { T(int k) {} int x; void f() { switch (x) { @case #: @x = 1; @@} } };
cases@20000@struct T { T(int k) {} int x; void f() { switch (x) { @case #: x = 1; break; @@@} } };
references@16000@struct T { T(int k) {} int x; void f() { switch (x) { @case #: int& r# = x; r# = 1; @@@} } };
locals@50000@struct T { T(int k) {} void f() { @int x# = #; @@@} };
assignments@60000@struct T { T(int k) {} int x; void f() { @x += #; @@@} };
loops@10000@struct T { T(int k) {} int x; void f() { @for (int i = 0; i < #; i++) { x = i; } @@@} };
sums@120000@struct T { T(int k) {} int x; void f() { x = 0@ + 1@@@; } };
calls@40000@struct T { T(int k) {} int x; int g(int k) { return k; } void f() { x = 0@ + g(#)@@@; } };
functions@20000@struct T { T(int k) {} int x; void f0() { x = 1; } @void f#() { f~(); } @@@};
classes@3500@struct C0 { int x; }; @struct C# { C~ c; C#() {} }; @struct T { T(int k) {} @C# c#; @};
instances@4095@template<int N> struct A { int x; void f() { x = N; } A() { x = 1; } }; struct T { T(int k) {} @A<#> a#; @@@};
special bodies@4000@template<int N> struct A { int x; void f(); }; @template<> void A<#>::f() {} @struct T { T(int k) {} @A<#> a#; @};
other bodies@4000@template<int N> struct A { int x; void f(); }; @template<> void A<-#>::f() {} template<> void A<-8000#>::f() {} @struct T { T(int k) {} @A<#> a#; @};
constants@43000@const int c0 = 1; @const int c#=c~;@@@struct T { T(int k) {} sc_uint<c#> x; };
types@43000@typedef int t0; @typedef t~ t#;@@@struct T { T(int k) {} t# x; };
arrows@130000@struct T { T(int k) {} T* p; int x; void f() { x = p@->p@@@->x; } };
enumerators@60000@struct T { T(int k) {} enum { E0@, E#@@@}; };
SHAPES
exit "$failed"
