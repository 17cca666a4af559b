#!/usr/bin/env bash
# Prints how long a call of `apply` takes, the mean of a million calls for each operator on small and on large operands, and
# beside it what the same loop takes without the call: making the operands and seeing that they may be given.
# The program that calls it is made, proved and built in a folder of its own.
set -euo pipefail
top=$(cd "$(dirname "$0")/.." && pwd)
work=$(mktemp -d)
trap 'rm -rf "$work"' EXIT
source "$top/bench/copied.sh"
mkdir -p "$work/crates/bench/src"
copied "$work" scc_bits
echo 'bench: scc_bits' >>"$work/crates.txt"
cat >"$work/crates/bench/src/main.rt" <<'PROGRAM'
//! Times a million calls of `apply` for each operator.
#![tactic(auto)]

use scc_bits::{Kind, Op, Word, apply, fits, result_kind, takes_right, too_wide, valid};
use std::io;
use std::time::Instant;

const CALLS: u32 = 1_000_000;

/// The sum of the answers, or of the left operands where `apply` isn't called, so that no turn is left out; 0 where the
/// operator has no row. The operands change from call to call, below 2 to `bits`.
fn calls(called: bool, op: Op, a: Kind, b: Kind, bits: u32) -> u128 {
    let mut sum: u128 = 0;
    let mask = if bits < 128 { (1u128 << bits) - 1 } else { u128::MAX };
    let mut x: u128 = 0x0123_4567_89ab_cdef_0246_8ace_1357_9bdf;
    if valid(a) && valid(b) && result_kind(op, a, b).is_some() && !too_wide(op, a, b) {
        for _ in 0..CALLS {
            x = x.wrapping_add(0x9e37_79b9_7f4a_7c15_f39c_c060_5ced_c835);
            let (left, right) = (Word { bits: x & mask }, Word { bits: (x >> 7) & mask });
            if fits(a, left) && fits(b, right) && takes_right(op, right) {
                let answer = if called { apply(op, a, left, b, right) } else { left };
                sum = sum.wrapping_add(answer.bits);
            }
        }
    }
    sum
}

fn main(rt: HostRuntime) -> io::Result<()> {
    let int = Kind::Native { bits: 32, signed: true };
    let small = Kind::Int(48);
    let large = Kind::BigInt(100);
    for op in [
        Op::Add, Op::Sub, Op::Mul, Op::Div, Op::Rem, Op::And, Op::Or, Op::Xor, Op::Eq, Op::Ne, Op::Lt, Op::Le, Op::Gt,
        Op::Ge, Op::Shl, Op::Shr, Op::LogAnd, Op::LogOr, Op::Plus, Op::Neg, Op::Not, Op::LogNot, Op::AndReduce,
        Op::OrReduce, Op::XorReduce,
    ] {
        for (a, b, bits) in [(int, int, 31), (small, small, 47), (large, large, 99), (large, small, 47)] {
            let start = Instant::now(&rt)?;
            let sum = calls(true, op, a, b, bits);
            let took = start.elapsed(&rt)?.as_nanos() / u128::from(CALLS);
            let start = Instant::now(&rt)?;
            let rest = calls(false, op, a, b, bits);
            let without = start.elapsed(&rt)?.as_nanos() / u128::from(CALLS);
            if result_kind(op, a, b).is_some() {
                println!(rt; "{op:?} {a:?} {b:?}: {took} ns, without the call {without} ns (sums {sum:x} {rest:x})")?;
            }
        }
    }
    Ok(())
}
PROGRAM
cd "$work/crates/bench"
rt run 2>"$work/log" | grep ' ns ' || { cat "$work/log"; exit 1; }
