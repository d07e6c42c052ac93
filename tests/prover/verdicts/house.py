"""Two small crates, `low` and `top` over it, with four wrong bodies, and a prover that refuses all but what it is told to take."""

from typing import Dict

FILES: Dict[str, str] = {
    "crates.txt": "low: thiserror\ntop: low\n",
    "docs/THEOREMS.md": "# Theorems\n\n## Mistakes that each run tries\n\n| Mistake | Wrong body |\n|---|---|\n| once | `low/doubles_once` |\n",
    "crates/low/src/lib.rt": """//! Numbers.
#![tactic(auto)]

mod kind;
mod numbers;

pub use kind::{Kind, MOST};
pub use numbers::{double, half, other};
""",
    "crates/low/src/kind.rt": """//! A kind of number.

ghost use Rattle.std.specs.Prelude.{◌≤◌};

/// The most that a number may be.
pub const MOST: u64 = 100;

/// A small number.
pub struct Kind {
    pub value: u64,
    ghost small: { value ≤ 100 },
}

impl Kind {
    /// Its value.
    pub fn value(&self) -> u64
        ensures { result ≡ self.now.value }
    {
        self.value
    }
}
""",
    "crates/low/src/numbers.rt": """//! Doubles and halves.

ghost use Rattle.std.specs.Prelude.{◌≡◌};
ghost use Rattle.low.specs.Numbers.{IsDouble, IsHalf};

use crate::kind::{Kind, MOST};

/// The double of a number.
pub fn double(kind: &Kind) -> u64
    ensures twice { IsDouble kind.now.value result }
{
    kind.value * 2
}

/// The half of a number, if it is even.
pub fn half(value: u64) -> Option<u64>
    requires { value ≤ 100 }
    ensures halved { IfSome result (IsHalf value) }
{
    if value > MOST || value % 2 == 1 {
        return None;
    }
    Some(value / 2)
}

/// Another function.
pub fn other(value: u64) -> u64
    ensures { result ≡ value }
{
    value
}
""",
    "crates/low/specs/Lib.antt": "pub mod Numbers\n",
    "crates/low/specs/Numbers.antt": """-- Doubles and halves.
use Rattle.std.specs.Prelude.{◌≡◌, ℕ, ◌*◌}

-- twice as much
abbrev pub IsDouble : ℕ → ℕ → Type 0
IsDouble n m = m ≡ n * 2

abbrev pub IsHalf : ℕ → ℕ → Type 0
IsHalf n m = IsDouble m n
""",
    "crates/low/proofs/Lib.antt": "pub mod Near\npub mod Far\n",
    "crates/low/proofs/Far.antt": """-- What is far.
use Rattle.std.proofs.Common.{◌≡◌, ℕ, refl}

pub far : (n : ℕ) → n ≡ n
far n = refl

-- of no use here
pub further : (n : ℕ) → n ≡ n
further n = refl
""",
    "crates/low/proofs/Near.antt": """-- What is near.
use Rattle.std.proofs.Common.{◌≡◌, ℕ}
use Rattle.low.proofs.Far.{far}

pub near : (n : ℕ) → n ≡ n
near n = far n
""",
    "crates/low/proofs/numbers/double/Answers.antt": """use Rattle.low.proofs.Near.{near}
use Rattle.low.proofs.numbers.double.Goals as goal

pub returns : goal.returns
returns g c = near c.result
""",
    "crates/low/must-fail/doubles_once.edit": "# clause: twice\nfile: src/numbers.rt\nold: kind.value * 2\nnew: kind.value * 1\n",
    "crates/low/must-fail/halves_twice.edit": "file: src/numbers.rt\nold: value / 2\nnew: value / 4\n",
    "crates/top/src/lib.rt": """//! Four times.
#![tactic(auto)]

ghost use Rattle.std.specs.Prelude.{◌≡◌};

use low::{Kind, double, half};

/// Four times a number.
pub fn fourfold(kind: &Kind) -> u64
    ensures { result ≡ kind.now.value * 4 }
{
    double(kind) * 2
}

/// A number as it is.
pub fn same(kind: &Kind) -> u64
    ensures { result ≡ kind.now.value }
{
    half(kind.value() * 2).unwrap_or(0)
}
""",
    "crates/top/must-fail/threefold.edit": "file: src/lib.rt\nold: double(kind) * 2\nnew: double(kind) * 3 / 2\n",
    "crates/top/must-fail/same_as_nothing.edit": "file: src/lib.rt\nold: unwrap_or(0)\nnew: unwrap_or(1)\n",
}

# A page of a function's contract, as `scripts/doubt` shows it.
CONTRACT = """crates/low/src/numbers.rt:16

/// The half of a number, if it is even.
pub fn half(value: u64) -> Option<u64>
    requires { value ≤ 100 }
    ensures halved { IfSome result (IsHalf value) }
"""

RT = "#!/bin/sh\ncat \"$(dirname \"$0\")/version\"\n"

# What the prover says of each function that it is asked for: that it has no proof, but for those that the file `takes` names.
RATTLE = '''#!/usr/bin/env python3
import pathlib, sys
AXIOMS = "axioms libc: 1 reached of the 2 declared\\n  libc::close\\n  libc::read   reached\\naxioms std: none reached of the 2 declared\\nlogic=proved functions=3 axioms=1"
words = sys.argv[1:]
name = words[words.index("--crate-name") + 1]
takes = (pathlib.Path(sys.argv[0]).parent / "takes").read_text().split()
for function in [words[at + 1] for at, it in enumerate(words) if it == "--only"]:
    is_taken = function.split("::")[-1].split("_edit_")[0] in takes
    # Without wrong bodies it is the other way round: each function is proved, but for these.
    is_doubted = "--allow-holes" not in words
    said = "proved" if is_doubted else "no holes"
    print(f"fn {name}::{function}: " + (said if is_taken != is_doubted else "`search` did not prove `returns`; a goal"))
    print(f"note: `returns` of proofs/Answers.antt must prove: result ≡ {function}")
print("only=it" if "--only" in words else f"fn {name}::{takes[0]}: not proved\\nlogic=not-proved" if takes else AXIOMS)
ends = pathlib.Path(sys.argv[0]).parent / "ends"
sys.exit(int(ends.read_text()) if ends.exists() else 0)
'''
