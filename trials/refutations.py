#!/usr/bin/env python3
"""Shows why rows of the protocol are as they are: under each of four wrong rows, events break a law.

    refutations.py

Each wrong row is planted alone in a copy of the definitions, as `definitions.py` plants its changes. The checker must
then accept a proof that the events lead to a world in which the law is false, and must refuse the proof with the right
row. A line is printed for each wrong row. The exit status is 1 if one of these checks fails. The libraries must be
built: `rt lib` in crates/test_definitions.
"""

import argparse
import dataclasses
import pathlib
import shutil
import sys
import tempfile

from definitions import (
    CHECKS,
    CRATE,
    FILES,
    HISTORY,
    ROOT,
    ROWS,
    SHARED,
    WORKED_SCHEME,
    Change,
    checking,
    definitions,
    failing,
    plant,
    put,
)

# The imports of all refutations.
HEAD = """\
use Rattle.std.proofs.Common.{◌≡◌, ℕ, true, List, [], ◌∷◌, ◌++◌, ◌⊎◌, inl, inr, refl, arith}
use Rattle.std.specs.Prelude.{take}
use Rattle.units.specs.declared.code.Node.TheVariants.{Itl}
use Rattle.status.specs.declared.status.Status.TheVariants.{Completed, Cancelled}
use Rattle.wire.specs.declared.message.Message.{Message}
use Rattle.wire.specs.declared.notified.NotifiedStatus.TheVariants as notified
use Rattle.protocol.specs.declared.event.WorldEvent.{WorldEvent}
use Rattle.protocol.specs.Claims.{Agrees, OnePlace, DeliversWelcome, TerminatesForEligibility, live_of}
use Rattle.protocol.specs.Verdict.{verdict}
use Rattle.protocol.specs.World.{step}
use Rattle.protocol.proofs.WorkedScheme.{nz_node, nz1, unit, scheme_s, notification, first_of_may, a_day_after, clean_up, transfer, after}

"""
# The name of the equation that each refutation proves.
BROKEN = "broken"


@dataclasses.dataclass(frozen=True)
class Refutation:
    """A wrong row, the events under it, and the proof that a law is false after them."""

    change: Change
    story: str
    proof: str


def wrong(name, file, old, new, story, proof):
    return Refutation(Change(name, file, old, new, BROKEN), story, proof)


REFUTATIONS = [
    wrong(
        "a clean-up cancels an Accepted transfer",
        ROWS,
        "log_row (Stands Checked) CleanUp = Move Cancelled",
        "log_row (Stands Checked) CleanUp = Move Cancelled\nlog_row (Stands Accepted) CleanUp = Move Cancelled",
        "JP accepts, the log passes it on, and NZ completes; before Completed reaches the log, a clean-up cancels the transfer there",
        """\
abbrev events : List WorldEvent
events = take 13 transfer ++ clean_up a_day_after ∷ []

pub broken : Agrees (live_of (after events)) → ⊥
unfolding step verdict
broken law = law nz1 nz_node Itl refl (inr (inr refl))
""",
    ),
    wrong(
        "the acquirer is credited as it accepts",
        HISTORY,
        "credits c s x = same_status x.new Completed &&",
        "credits c s x = same_status x.new Accepted &&",
        "JP accepts and is credited with units that NZ still has until Accepted reaches it",
        """\
pub broken : OnePlace scheme_s (live_of (after (take 8 transfer))) → ⊥
unfolding step verdict
broken law = let two : ◌≡◌ {A = ℕ} 2 1 = law (unit 1) in omega arith
""",
    ),
    wrong(
        "Completed acts again",
        ROWS,
        "acquirer_row (Stands Completed) (Notified Completed) = Repeat",
        "acquirer_row (Stands Completed) (Notified Completed) = Move Completed",
        "the last message of a transfer is delivered once more; JP, which has the units, refuses to be credited with them",
        """\
pub broken : DeliversWelcome (after transfer) → ⊥
unfolding step verdict
broken law = let other : ◌≡◌ {A = ℕ} 46 49 = law 5 first_of_may 46 refl in omega arith
""",
    ),
    wrong(
        "the log finds that the initiator's units have another owner",
        CHECKS,
        "is_of_another holder owner c = is_some holder && not (is_owner owner c)",
        "is_of_another holder owner c = is_some holder",
        "NZ proposes its own units, and the log sends it Terminated for a cause that isn't eligibility",
        """\
neither : (◌≡◌ {A = ℕ} 204 207 ⊎ ◌≡◌ {A = ℕ} 204 208) → ⊥
neither (inl e) = omega (arith, e)
neither (inr e) = omega (arith, e)

pub broken : TerminatesForEligibility (live_of (after (take 4 transfer))) → ⊥
unfolding step verdict
broken law = neither (law told found 204 (0, omega arith, refl) refl (0, omega arith, refl))
  where
    found : List ℕ
    found = 204 ∷ []
    told : Message
    told = notification Itl nz_node nz1 (notified.Terminated found)
""",
    ),
]


def refuted(refutation, folder, words, is_wrong):
    """Returns the equations of the refutation's proof that fail, under its wrong row or under the right one."""
    put(definitions(), folder / "specs")
    if is_wrong:
        plant(refutation.change, folder / "specs")
    proof = folder / "Broken.antt"
    proof.write_text(HEAD + refutation.proof)
    put([proof, *(it for it in FILES if it.stem in SHARED), WORKED_SCHEME], folder / "proofs")
    return failing(words)


def main():
    argparse.ArgumentParser(description=__doc__.splitlines()[0]).parse_args()
    good = True
    with tempfile.TemporaryDirectory() as place:
        folder = pathlib.Path(place)
        shutil.copytree(ROOT / "crates" / CRATE / "src", folder / "src")
        words = checking(folder / "src" / "lib.rt")
        for it in REFUTATIONS:
            breaks = not refuted(it, folder, words, True)
            keeps = BROKEN in refuted(it, folder, words, False)
            good = good and breaks and keeps
            how = "breaks the law" if breaks and keeps else "ISN'T REFUTED" if keeps else "THE RIGHT ROW BREAKS THE LAW"
            print(f"{it.change.name}: {it.story}: {how}", flush=True)
    sys.exit(0 if good else 1)


if __name__ == "__main__":
    main()
