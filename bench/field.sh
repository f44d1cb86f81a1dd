#!/bin/sh
# How long 10^8 chained products of field elements take, beside the same loop in C at -O2.
# It prints both times, the least of five runs each, and their ratio. Run it at the top of the repository.
set -eu

root=$(cd "$(dirname "$0")/.." && pwd)
work=$(mktemp -d)
trap 'rm -rf "$work"' EXIT

mkdir -p "$work/crates/chain/src" "$work/crates/chain/proofs/uncounted" "$work/crates/chain/specs"
for name in blic_basic blic_field; do
    (cd "$root/crates" && tar --exclude=out -cf - "$name") | tar -C "$work/crates" -xf -
done

cat > "$work/crates.txt" <<'END'
blic_basic:
blic_field: blic_basic
chain: blic_field blic_basic
END

cat > "$work/crates/chain/src/main.rt" <<'END'
//! A long chain of products.
#![tactic(auto)]

ghost use Rattle.std.specs.Prelude.{◌≡◌, ◌<◌};

use blic_basic::Steps;
use blic_field::Fe;
use std::io;
use std::marker::Brand;
use std::sync::ledger::{Blank, Ledger};

fn counted<L: Ledger>(start: Fe, blank: Blank) -> Fe
    requires name { blank.name ≡ L.name }
    requires parts { blank.parts ≡ L.parts }
    requires some { 0 < L.parts }
{
    let mut steps = Steps::<L>::new(blank);
    let mut value = start;
    for _ in 0..100_000_000u64 {
        value = value.mul(start, &mut steps);
    }
    value
}

fn uncounted(start: Fe) -> Fe {
    counted::<Brand>(start, Blank::new(1))
}

fn main(rt: HostRuntime) -> io::Result<()> {
    let start = Fe::from_u64(1234567890123456789).unwrap_or(Fe::ONE);
    println!(rt; "{}", uncounted(start).value())
}
END

cat > "$work/crates/chain/proofs/uncounted/Invariants.antt" <<'END'
use Rattle.chain.proofs.uncounted.Given as goal

abbrev pub ghosts-counted : goal.ghosts-counted
ghosts-counted a = record { name = a.blank.name; parts = a.blank.parts }
END

cat > "$work/chain.c" <<'END'
#include <stdint.h>
#include <stdio.h>

static const uint64_t modulus = 2305843009213693951u;

static uint64_t product(uint64_t a, uint64_t b) {
    unsigned __int128 whole = (unsigned __int128)a * b;
    uint64_t sum = (uint64_t)(whole & modulus) + (uint64_t)(whole >> 61);
    return sum >= modulus ? sum - modulus : sum;
}

int main(void) {
    volatile uint64_t given = 1234567890123456789u;
    uint64_t start = given, value = start;
    for (uint64_t round = 0; round < 100000000u; round++)
        value = product(value, start);
    printf("%llu\n", (unsigned long long)value);
    return 0;
}
END

"${CC:-clang}" -O2 -o "$work/native" "$work/chain.c"
(cd "$work/crates/chain" && rt run > "$work/log" 2>&1) || true
built="$work/crates/chain/out/chain"
if [ ! -x "$built" ]; then
    tail -40 "$work/log" >&2
    exit 1
fi

python3 - "$built" "$work/native" <<'END'
import subprocess, sys, time

def run(program):
    begin = time.perf_counter()
    text = subprocess.run([program], capture_output=True, check=True).stdout
    return time.perf_counter() - begin, text

ours, native = [], []
for _ in range(5):
    ours.append(run(sys.argv[1]))
    native.append(run(sys.argv[2]))
if len({text for _, text in ours + native}) != 1:
    sys.exit("the two programs print different products")
a, b = min(ours)[0], min(native)[0]
print(f"10^8 products: {a:.3f} s, in C at -O2 {b:.3f} s, ratio {a / b:.3f}")
END
