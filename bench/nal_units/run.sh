#!/bin/sh
# Measures Finder::push_slice on 64 MiB: writes a program out to a temporary repository over this one's nal_units, and runs it.
set -eu
here=$(cd "$(dirname "$0")/../.." && pwd)
work=$(mktemp -d)
trap 'rm -rf "$work"' EXIT
mkdir -p "$work/crates/bench/src" "$work/crates/bench/proofs/units_of" "$work/crates/bench/proofs/ones_of"
cp -r "$here/crates/nal_units" "$work/crates/nal_units"
if [ -f "$here/HANDLES" ]; then cp "$here/HANDLES" "$work/HANDLES"; fi
cat > "$work/crates.txt" <<'END'
nal_units:
bench: nal_units anyhow memchr
END
cat > "$work/crates/bench/src/main.rt" <<'END'
//! Measures how fast a finder goes through 64 MiB.
#![tactic(auto)]

ghost use Rattle.std.specs.Prelude.{◌^◌, ◌≤◌, length};

use memchr::memchr;
use nal_units::{Finder, Found};
use std::alloc::Global;
use std::time::Instant;

const LEN: usize = 67_108_864;

/// What the bytes are, and how many in 256 are made zero beside those that are so by chance.
const KINDS: [(&str, u8, bool); 4] = [
    ("random bytes", 0, false),
    ("units of 12,000 random bytes", 0, true),
    ("units of 12,000 bytes, 5 in 100 zero", 12, true),
    ("units of 12,000 bytes, 16 in 100 zero", 40, true),
];

fn main(rt: HostRuntime) -> anyhow::Result<()> {
    for (name, more_zeros, split) in KINDS {
        let text = made(rt.alloc(), more_zeros, split)?;
        measure(&rt, text.as_slice(), name)?;
    }
    Ok(())
}

/// Prints the least time of eight rounds of each, since other programs may run beside this one.
fn measure(rt: &HostRuntime, text: &[u8], name: &str) -> anyhow::Result<()> {
    if text.len() > 2 * LEN {
        return Ok(());
    }
    let mut ours = u128::MAX;
    let mut theirs = u128::MAX;
    let mut found = (0, 0);
    let mut ones = 0;
    for _ in 0..8 {
        let start = Instant::now(rt)?;
        found = units_of(text);
        ours = ours.min(start.elapsed(rt)?.as_micros());
        let start = Instant::now(rt)?;
        ones = ones_of(text);
        theirs = theirs.min(start.elapsed(rt)?.as_micros());
    }
    let (units, bytes) = found;
    println!(rt; "{name}: {units} units of {bytes} bytes, finder {ours} us; {ones} bytes 01, memchr {theirs} us")?;
    Ok(())
}

fn units_of(text: &[u8]) -> (u64, u64)
    requires { length text.now ≤ 2 ^ 63 }
{
    let mut units: u64 = 0;
    let mut bytes: u64 = 0;
    let mut finder = Finder::new();
    let mut at: usize = 0;
    while at < text.len() {
        let (taken, found) = finder.push_slice(&text[at..]);
        at += taken;
        match found {
            Found::Unit { start, end } => {
                units = units.wrapping_add(1);
                bytes = bytes.wrapping_add(end.wrapping_sub(start));
            }
            Found::Broken { .. } => return (units, bytes),
            Found::Nothing => {}
        }
    }
    (units, bytes)
}

fn ones_of(text: &[u8]) -> u64 {
    let mut ones: u64 = 0;
    let mut rest = text;
    while let Some(k) = memchr(1, rest) {
        if k > 2 * LEN {
            break;
        }
        if k >= rest.len() {
            break;
        }
        ones = ones.wrapping_add(1);
        rest = &rest[k + 1..];
    }
    ones
}

/// One unit, or many, of pseudo-random bytes with 03 where a start code would be.
fn made(alloc: Global, more_zeros: u8, split: bool) -> anyhow::Result<Vec<u8>> {
    let mut text = Vec::with_capacity(alloc, LEN)?;
    let mut state: u64 = 0x9E37_79B9_7F4A_7C15;
    text.extend_from_slice(&[0, 0, 0, 1, 0x65])?;
    let mut zeros: u32 = 0;
    let mut since: u32 = 0;
    for _ in 0..LEN {
        state ^= (state & 0x7_ffff_ffff_ffff) << 13;
        state ^= state >> 7;
        state ^= (state & 0x7fff_ffff_ffff) << 17;
        let draw = ((state >> 24) & 0xff) as u8;
        let byte = if draw < more_zeros { 0 } else { draw };
        since = since.wrapping_add(1);
        if split && since > 12000 {
            since = 0;
            zeros = 0;
            text.extend_from_slice(&[0x80, 0, 0, 0, 1, 0x41])?;
        } else if zeros >= 2 && byte <= 3 {
            text.push(3)?;
            text.push(byte)?;
            zeros = if byte == 0 { 1 } else { 0 };
        } else {
            text.push(byte)?;
            zeros = if byte == 0 { zeros.wrapping_add(1) } else { 0 };
        }
    }
    Ok(text)
}
END
cat > "$work/crates/bench/proofs/ones_of/Invariants.antt" <<'END'
use Rattle.std.proofs.Common.{length}
use Rattle.bench.proofs.ones_of.Given as goal

abbrev pub decreases-loop-k : goal.decreases-loop-k
decreases-loop-k l = length l.rest
END
cat > "$work/crates/bench/proofs/units_of/Invariants.antt" <<'END'
use Rattle.std.proofs.Common.{◌-◌, ◌≤◌, length, take}
use Rattle.nal_units.specs.Finder.{StandsFor}
use Rattle.bench.proofs.units_of.Given as goal

abbrev pub invariant-loop-at : goal.invariant-loop-at
invariant-loop-at l = record { within : l.at ≤ length l.text; stands : StandsFor l.finder (take l.at l.text) }

abbrev pub decreases-loop-at : goal.decreases-loop-at
decreases-loop-at l = length l.text - l.at
END
cat > "$work/crates/bench/proofs/units_of/Answers.antt" <<'END'
use Rattle.std.proofs.Common.{◌≡◌, ◌+◌, ◌-◌, List, ℕ, ◌++◌, length, take, drop, sym, ◌∙◌, ap, subst, arith}
use Rattle.std.proofs.lemmas.List.{length-drop}
use Rattle.std.proofs.Math.Seq.{take-add, take-length}
use Rattle.nal_units.specs.Finder.{StandsFor}
use Rattle.bench.proofs.units_of.Goals as goal

-- the bytes so far, and some of the rest
on : (xs : List ℕ) (i r : ℕ) → take i xs ++ take r (take (length xs - i) (drop i xs)) ≡ take (i + r) xs
on xs i r = ap (λ n. take i xs ++ take r (take n (drop i xs))) (sym (length-drop i xs)) ∙ ap (λ x. take i xs ++ take r x) (take-length (drop i xs)) ∙ sym (take-add i r xs)

rest_len : (xs : List ℕ) (i : ℕ) → length (take (length xs - i) (drop i xs)) ≡ length xs - i
rest_len xs i = ap (λ n. length (take n (drop i xs))) (sym (length-drop i xs)) ∙ ap length (take-length (drop i xs)) ∙ length-drop i xs

pub loop-at-preserved-in-Unit : goal.loop-at-preserved-in-Unit
loop-at-preserved-in-Unit c =
  let xs : List ℕ = c.args.text.now in
  let i = c.loop-at.at in
  let r = c.push_slice-taken.result.0 in
  let rest = rest_len xs i in
  let taken = c.push_slice-taken.ensures.taken in
  let P : List ℕ → Type 0 = λ t. StandsFor c.push_slice-taken.new.self t in
  record { within = omega arith; stands = subst P (on xs i r) (c.push_slice-taken.ensures.stands (take i xs) c.loop-at.invariant.stands) }

pub loop-at-preserved : goal.loop-at-preserved
loop-at-preserved c =
  let xs : List ℕ = c.args.text.now in
  let i = c.loop-at.at in
  let r = c.push_slice-taken.result.0 in
  let rest = rest_len xs i in
  let taken = c.push_slice-taken.ensures.taken in
  let P : List ℕ → Type 0 = λ t. StandsFor c.push_slice-taken.new.self t in
  record { within = omega arith; stands = subst P (on xs i r) (c.push_slice-taken.ensures.stands (take i xs) c.loop-at.invariant.stands) }
END
cd "$work/crates/bench"
rt run
