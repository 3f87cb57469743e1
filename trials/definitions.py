#!/usr/bin/env python3
"""Plants wrong definitions, each of which a worked equation must refuse.

    definitions.py [--stack] [--only WORD]

A definition that no equation pins can be wrong unnoticed, with the code and the laws that rest on it. Each change of
the list is planted alone in a copy of the crate `test_definitions`, with a copy of the definitions, and the checker
must find that the equation that the list names fails by its value. Laws and code are not proved. With --stack, changes
of one list are planted together if their texts don't touch, which is faster and shows less, since one change may make
the equation of another one fail. The libraries must be built: `rt lib` in crates/test_definitions.

A line is printed for each change. The exit status is 1 if a change isn't refused, if an equation fails without a
change, or if the checker reports another error.
"""

import argparse
import dataclasses
import pathlib
import re
import shutil
import subprocess
import sys
import tempfile

ROOT = pathlib.Path(__file__).resolve().parent.parent
CRATE = "test_definitions"
FILES = [it for it in (ROOT / "crates" / CRATE / "proofs").glob("*.antt") if it.name != "Lib.antt"]
SHARED = ("ShortNames", "ThreeRegistries")
# Definitions of the crate `records` that `protocol` exports as its own.
RECORDS = ("Records", "Sending", "Unacknowledged")
WORKED_SCHEME = ROOT / "crates" / "protocol" / "proofs" / "WorkedScheme.antt"
# An error: its file, its definition and its text. The error of a limit doesn't show that a value is wrong.
ERROR = re.compile(r"^(\S+?):\d+:\d+: error: (?:`(\w+)`: )?(.*)", re.MULTILINE)
LIMIT = re.compile(r"(step|memory) limit")


@dataclasses.dataclass(frozen=True)
class Change:
    """A change of a file: `old`, which occurs once, becomes `new`, and `equation` must refuse it."""

    name: str
    file: str
    old: str
    new: str
    equation: str


def swapped(name, file, first, second, equation):
    """Returns a change that swaps two neighbours of a list of causes, each of which is a whole line except for the sign
    before it."""
    text = (ROOT / "crates" / file).read_text()
    lines = {}
    for it in (first, second):
        found = [line for line in text.splitlines() if it in line]
        if len(found) != 1:
            sys.exit(f"{name}: {it} is in {len(found)} lines of {file}")
        lines[it] = found[0]
    one, other = (re.sub(r"^ *(∷ )?", "", lines[it]) for it in (first, second))
    old = f"{lines[first]}\n{lines[second]}"
    new = f"{lines[first].replace(one, other)}\n{lines[second].replace(other, one)}"
    return Change(name, file, old, new, equation)


LOG, REGISTRY = "protocol/specs/AtLog.antt", "protocol/specs/AtRegistry.antt"
CHECKS, DECIDING, HISTORY = "protocol/specs/Checks.antt", "protocol/specs/Deciding.antt", "protocol/specs/History.antt"
TABLE, WORLD, UNACKNOWLEDGED = "protocol/specs/Table.antt", "protocol/specs/World.antt", "records/specs/Unacknowledged.antt"
ROWS = "status/specs/Rows.antt"

# The changes by their subjects. Changes of one list may be planted together.
CHANGES = {
    "messages at the log": [
        Change("anybody accepts for the acquirer", LOG, "from t k Accepted = is_not_acquirer from k", "from t k Accepted = false", "only_the_acquirer_accepts"),
        Change("anybody rejects for the acquirer", LOG, "from t k Rejected = is_not_acquirer from k", "from t k Rejected = false", "only_the_acquirer_rejects"),
        Change("anybody completes for the initiator", LOG, "from t k Completed = not (same_node from (Registry t.code))", "from t k Completed = false", "only_the_initiator_completes"),
        Change("the acquirer isn't compared", LOG, "not (same_node from (Registry content.acquirer))", "false", "only_the_acquirer_rejects"),
        Change("a message to another node is taken by the log", LOG, "not (same_node m.to Itl)", "false", "proposal_addressee_before_sender"),
        Change("anybody writes to the log", LOG, "is_no_registry scheme m.from", "false", "proposal_sender_before_party"),
        Change(
            "other content before wrong party at the log",
            LOG,
            "(not (same_node from (Registry t.code)), wrong_party)\n    ∷ (has_other (newest (transitions_of es) t) p.content, other_content)",
            "(has_other (newest (transitions_of es) t) p.content, other_content)\n    ∷ (not (same_node from (Registry t.code)), wrong_party)",
            "proposal_party_before_content",
        ),
        Change("a checked proposal is taken by the log", LOG, "not (is_proposed p.status)", "false", "proposal_content_before_status"),
        swapped("sender before addressee at the log", LOG, "(not (same_node m.to Itl), other_addressee)", "(is_no_registry scheme m.from, sender_not_allowed)", "notification_addressee_before_sender"),
        swapped("wrong party before unknown transaction", LOG, "(not (is_known (transitions_of es) t), unknown_transaction)", "(is_from_another from t (content_in", "known_before_party"),
        Change("anybody asks for a cancellation", LOG, "t body.Request = (not (same_node from (Registry t.code)), wrong_party) ∷ []", "t body.Request = []", "request_ladder"),
        Change("a registry that isn't there is made eligible", LOG, "(not (has_member scheme c), unknown_registry)", "(false, unknown_registry)", "eligible_unknown_before_so"),
    ],
    "clean-ups": [
        Change("a clean-up in the order of arrival", LOG, "by_id (x ∷ xs) = put_transition x (by_id xs)", "by_id (x ∷ xs) = x ∷ by_id xs", "cleaned_up_in_order"),
        Change("a clean-up by number before code", LOG, "is_lt (id_cmp x.id y.id)", "nat_le x.id.number y.id.number", "cleaned_up_in_order"),
        Change("a clean-up a second late", LOG, "nat_le (x.moment + clean_up_age) moment", "nat_le (x.moment + clean_up_age + 1) moment", "after_checked"),
    ],
    "messages at a registry": [
        Change("a message to another node is taken by a registry", REGISTRY, "not (same_node m.to (Registry c))", "false", "passed_on_addressee_before_sender"),
        Change(
            "sender before addressee at a registry",
            REGISTRY,
            "(not (same_node m.to (Registry c)), other_addressee) ∷ (not (same_node m.from Itl), sender_not_allowed)",
            "(not (same_node m.from Itl), sender_not_allowed) ∷ (not (same_node m.to (Registry c)), other_addressee)",
            "told_addressee_before_sender",
        ),
        Change("blocks that share a unit are taken by a registry", REGISTRY, " || repeats (pieces p.content.units)", "", "not_for_this_registry"),
        swapped("other content before wrong party at a registry", REGISTRY, "wrong_party)", "other_content)", "passed_on_party_before_content"),
        swapped("no row before other content at a registry", REGISTRY, "other_content)", "(not (is_checked p.status), no_row)", "passed_on_content_before_status"),
        Change("its own transaction is cancelled before it is proposed", REGISTRY, " && not (same_code t.code c)", "", "unknown_at_initiator"),
    ],
    "account orders and requests": [
        Change("one transfer keeps every account open", REGISTRY, "option_map_or (λ k. k.to_account == account) x.content false", "option_map_or (λ k. true) x.content false", "close_another_than_awaited"),
        swapped("awaited before in use", REGISTRY, "holds_units)", "transfer_accepted)", "close_used_before_awaited"),
        swapped("in use before closed", REGISTRY, "∷ (is_closed es account, already_so)", "holds_units)", "close_closed_before_used"),
        swapped("no longer proposed before not proposed here", REGISTRY, "not_proposed_here)", "no_longer_proposed)", "request_unknown_before_ended"),
        Change("an account that was closed stays closed", HISTORY, "closes account (OpenAccount n) = cond (n.value == account) (Some false) None", "closes account (OpenAccount n) = None", "account_reopened"),
        Change("the key after the last one is acknowledged", DECIDING, "nat_le (length (sends es)) key", "not (nat_le key (length (sends es)))", "keys_of_a_registry"),
    ],
    "orders to transfer units": [
        Change("a proposal carries the blocks as ordered", REGISTRY, "units = canonical o.units", "units = o.units", "proposed_in_canonical_form"),
        Change("the greatest unit is out of range", CHECKS, "nat_lt last_unit b.last", "not (nat_lt b.last last_unit)", "last_units"),
        Change("sixteen blocks are too many", CHECKS, "nat_lt most_blocks (length o.units)", "not (nat_lt (length o.units) most_blocks)", "most_blocks"),
        Change("the greatest account is out of range", CHECKS, "nat_lt last_account o.to_account", "not (nat_lt o.to_account last_account)", "last_accounts"),
        Change("an acquirer that isn't there", CHECKS, "not (has_member scheme o.acquirer) || same_code", "same_code", "acquirer_before_receiving_account"),
        swapped("range before block count", CHECKS, "wrong_block_count)", "block_out_of_range)", "block_count_before_range"),
        swapped("overlap before range", CHECKS, "block_out_of_range)", "blocks_overlap)", "range_before_overlap"),
        swapped("account before overlap", CHECKS, "blocks_overlap)", "account_not_open)", "overlap_before_account"),
        swapped("holding before account", CHECKS, "account_not_open)", "unit_not_held)", "account_before_holding"),
        swapped("reservation before holding", CHECKS, "unit_not_held)", "unit_reserved)", "holding_before_reservation"),
        swapped("acquirer before reservation", CHECKS, "unit_reserved)", "no_such_acquirer)", "reservation_before_acquirer"),
        swapped("receiving account before acquirer", CHECKS, "no_such_acquirer)", "account_out_of_range)", "acquirer_before_receiving_account"),
    ],
    "findings": [
        Change(
            "one accepted kind is enough",
            CHECKS,
            "list_any (λ p. not (takes_kind scheme c p.kind)) (pieces k.units)",
            "not (list_any (λ p. takes_kind scheme c p.kind) (pieces k.units))",
            "one_kind_of_two",
        ),
        swapped("kind before held", CHECKS, "unit_already_held)", "kind_not_taken)", "held_before_kind"),
        swapped("not allotted before overlap", CHECKS, "unit_repeated)", "unit_not_allotted)", "overlap_before_not_allotted"),
        swapped("kind before busy", CHECKS, "other_transfer)", "other_kind)", "busy_before_kind"),
        Change(
            "only units of checked transactions are busy",
            HISTORY,
            "(stands_at xs x.id Checked || stands_at xs x.id Accepted) && carries x s",
            "stands_at xs x.id Checked && carries x s",
            "busy_while_accepted",
        ),
    ],
    "the world": [
        Change("a stopped node takes inputs", WORLD, "take_input scheme input s = running s (answered s input (verdict scheme s.node (history scheme s.node (journal s)) input))", "take_input scheme input s = answered s input (verdict scheme s.node (history scheme s.node (journal s)) input)", "stopped_registry"),
        Change("a crash keeps more than there is", WORLD, "cond (nat_le kept (length s.tail))", "cond (nat_le kept kept)", "crash_beyond_the_tail"),
        Change("a crash keeps none", WORLD, "committed = s.committed ++ take kept s.tail;", "committed = s.committed;", "crash_keeps_one"),
        Change("a crash keeps all", WORLD, "committed = s.committed ++ take kept s.tail;", "committed = s.committed ++ s.tail;", "crash_keeps_none"),
        Change("a key that another node posted is acknowledged", WORLD, "same_node p.node n && (p.key == key)", "p.key == key", "ack_of_another_node"),
        Change("the log proposes", WORLD, "is_order w n (Propose o) = is_registry n", "is_order w n (Propose o) = true", "propose_at_log"),
        Change("the log opens an account", WORLD, "is_order w n (OpenAccount account) = is_registry n", "is_order w n (OpenAccount account) = true", "open_at_log"),
        Change("the log closes an account", WORLD, "is_order w n (CloseAccount account) = is_registry n", "is_order w n (CloseAccount account) = true", "close_at_log"),
        Change("the log asks for cancellation", WORLD, "is_order w n (Request t) = is_registry n", "is_order w n (Request t) = true", "request_at_log"),
        Change("a registry makes one eligible", WORLD, "is_order w n (Eligible c may) = not (is_registry n)", "is_order w n (Eligible c may) = true", "eligible_at_registry"),
        Change("a registry cleans up", WORLD, "is_order w n (CleanUp t) = not (is_registry n)", "is_order w n (CleanUp t) = true", "clean_up_at_registry"),
        Change("a message that nobody sent is an order", WORLD, "is_order w n (Received m moment) = false", "is_order w n (Received m moment) = true", "message_that_nobody_sent"),
    ],
    "tables and messages to be acknowledged": [
        Change(
            "units that were received are due",
            TABLE,
            "not (is_received f p.id (Some p.content))",
            "is_received f p.id (Some p.content)",
            "due_at_first",
        ),
        Change("an acknowledged message is awaited", UNACKNOWLEDGED, " && not (is_acknowledged key)", "", "awaits_no_acknowledged"),
    ],
    "rows": [
        Change("rejected again is late at the initiator", ROWS, "initiator_row (Stands Rejected) (Notified Rejected) = Repeat", "initiator_row (Stands Rejected) (Notified Rejected) = Late", "initiator_at_rejected"),
        Change("terminated again is late at the initiator", ROWS, "initiator_row (Stands Terminated) (Notified Terminated) = Repeat", "initiator_row (Stands Terminated) (Notified Terminated) = Late", "initiator_at_terminated"),
        Change("cancelled again is late at the initiator", ROWS, "initiator_row (Stands Cancelled) (Notified Cancelled) = Repeat", "initiator_row (Stands Cancelled) (Notified Cancelled) = Late", "initiator_at_cancelled"),
        Change("accepted again is late at the log", ROWS, "log_row (Stands Accepted) (Notified Accepted) = Repeat", "log_row (Stands Accepted) (Notified Accepted) = Late", "log_at_accepted"),
        Change("rejected again is late at the log", ROWS, "log_row (Stands Rejected) (Notified Rejected) = Repeat", "log_row (Stands Rejected) (Notified Rejected) = Late", "after_rejected"),
        Change("a request at Rejected is a repeat", ROWS, "log_row (Stands Rejected) Request = Late", "log_row (Stands Rejected) Request = Repeat", "log_at_rejected"),
        Change("a request at Terminated is a repeat", ROWS, "log_row (Stands Terminated) Request = Late", "log_row (Stands Terminated) Request = Repeat", "log_at_terminated"),
        Change("a request at Completed is a repeat", ROWS, "log_row (Stands Completed) Request = Late", "log_row (Stands Completed) Request = Repeat", "log_at_completed"),
        Change("a request at Cancelled is a repeat", ROWS, "log_row (Stands Cancelled) Request = Late", "log_row (Stands Cancelled) Request = Repeat", "log_at_cancelled"),
        Change(
            "findings after a cancellation are sent by the log",
            ROWS,
            "log_row Bare ProposalWithFindings = Late",
            "log_row Bare ProposalWithFindings = Move Terminated",
            "proposed_after_cancellation",
        ),
        Change(
            "findings after a cancellation are sent by the acquirer",
            ROWS,
            "acquirer_row Bare ProposalWithFindings = Late",
            "acquirer_row Bare ProposalWithFindings = Move Rejected",
            "passed_on_after_cancellation",
        ),
        Change("cancelled again without content is refused", ROWS, "acquirer_row Bare (Notified Cancelled) = Repeat", "acquirer_row Bare (Notified Cancelled) = Refused", "acquirer_without_content"),
        Change("cancelled again with content is refused", ROWS, "acquirer_row (Stands Cancelled) (Notified Cancelled) = Repeat", "acquirer_row (Stands Cancelled) (Notified Cancelled) = Refused", "acquirer_at_cancelled"),
    ],
    "histories and values derived from them": [
        Change("every record counts as a proposal", HISTORY, "count_by (λ e. is_proposal_order e.input) es", "count_by (λ e. true) es", "numbers_in_order"),
        Change("a request is one for every transaction", HISTORY, "is_request_of t (Request u) = same_id u t", "is_request_of t (Request u) = true", "requests_apart"),
        Change("an order is for every registry", HISTORY, "cond (same_code d c) (Some may) None", "Some may", "eligible_registries"),
        Change("the book moves with the acceptance", HISTORY, "cond (same_status x.new Completed && carries x s)", "cond (carries x s)", "owners_by_the_book"),
        Change("units stay in the account that they were allotted to", HISTORY, "cond (credits c s x) (position_in s x.content) (position scheme c xs s)", "position scheme c xs s", "held_as_credited"),
        Change("units stay reserved", HISTORY, "(stands_at xs x.id Proposed && carries x s)", "carries x s", "units_of_initiator"),
        Change("a unit that is held is credited", REGISTRY, "unless_held true (Move Completed) = Refused", "unless_held true (Move Completed) = Move Completed", "held_already"),
        Change("units that nobody was allotted aren't in an account", REGISTRY, " ++ flat_map (λ x. option_map_or (λ k. pieces k.units) x.content []) xs", "", "held_without_allotment"),
        Change(
            "a clean-up of all transactions that were ever checked",
            LOG,
            "x ∷ filter (λ y. not (same_id y.id x.id)) (newest_of_each xs)",
            "x ∷ newest_of_each xs",
            "cleaned_up_by_age",
        ),
        Change(
            "units that nobody was allotted have another owner",
            CHECKS,
            "is_some holder && not (is_owner owner c)",
            "not (is_owner owner c)",
            "twice_and_not_allotted",
        ),
        Change("an account that isn't there is closed", CHECKS, "has_account scheme c k.to_account && known.is_closed", "known.is_closed", "closed_accounts"),
        Change("a registry that isn't there isn't eligible", CHECKS, "has_member scheme k.acquirer && not (known", "not (known", "wrong_acquirer"),
        Change("a commit takes the whole tail", WORLD, "committed = s.committed ++ take count s.tail; tail = drop count s.tail", "committed = s.committed ++ s.tail; tail = []", "commit_takes_the_first"),
        Change(
            "units that were received are owed",
            "protocol/specs/Claims.antt",
            "gives c s x && not (is_received f x.id x.content)",
            "gives c s x",
            "one_place",
        ),
        Change("units of two periods are the same", "protocol/specs/Pieces.antt", "same_period a.period b.period && (a.number == b.number)", "a.number == b.number", "other_units"),
    ],
}


# ---- a copy of the crate, with definitions of its own


def definitions():
    """Returns the files of definitions in which a change may be."""
    records = [ROOT / "crates" / "records" / "specs" / f"{it}.antt" for it in RECORDS]
    return [*(ROOT / "crates" / "protocol" / "specs").glob("*.antt"), *records, ROOT / "crates" / ROWS]


def renamed(text):
    """Returns the text with imports from the definitions of the copy."""
    text = re.sub(r"Rattle\.protocol\.specs\.(?!declared\b)", f"Rattle.{CRATE}.specs.", text)
    text = re.sub(rf"Rattle\.records\.specs\.(?=(?:{'|'.join(RECORDS)})\b)", f"Rattle.{CRATE}.specs.", text)
    return text.replace("Rattle.status.specs.Rows.", f"Rattle.{CRATE}.specs.Rows.").replace("Rattle.protocol.proofs.", f"Rattle.{CRATE}.proofs.")


def put(files, folder):
    """Writes these files, renamed, into the folder, in place of its former files."""
    shutil.rmtree(folder, ignore_errors=True)
    folder.mkdir()
    for it in files:
        (folder / it.name).write_text(renamed(it.read_text()))
    (folder / "Lib.antt").write_text("".join(f"pub mod {it.stem}\n" for it in files if it.stem != "Lib"))


def plant(change, folder):
    path = folder / pathlib.Path(change.file).name
    text = path.read_text()
    if text.count(change.old) != 1:
        sys.exit(f"{change.name}: the text to be replaced occurs {text.count(change.old)} times in {change.file}")
    path.write_text(text.replace(change.old, change.new))


def file_of(equation):
    """Returns the file of the crate that has the equation."""
    return next(it for it in FILES if re.search(rf"^pub {equation} : ", it.read_text(), re.MULTILINE))


# ---- the checker


def below(crate, used):
    """Returns the repository's libraries that a crate uses, directly or through others."""
    lower = [it for it in used[crate] if it in used]
    return {*lower, *(lowest for it in lower for lowest in below(it, used))}


def checking(root, crate=CRATE):
    """Returns the command by which the checker checks a copy of the crate with built libraries."""
    kit = pathlib.Path(subprocess.run(["rt", "doc"], capture_output=True, text=True, check=True).stdout.strip()).parent
    lines = (line for line in (ROOT / "crates.txt").read_text().splitlines() if line and not line.startswith("#"))
    used = {name: libraries.split() for name, libraries in (line.split(":") for line in lines)}
    words = [kit / "bin" / "rattle", "check", "--crate-name", crate, root, "--extern", f"std={kit / 'rlibs' / 'std.rlib'}", "-L", f"dependency={kit / 'rlibs'}"]
    for it in sorted(below(crate, used)):
        library = ROOT / "crates" / it / "out" / "rlib" / f"{it}.rlib"
        if not library.exists():
            sys.exit(f"{it} isn't built: `rt lib` in crates/{crate} builds it and the crates that it uses")
        words += ["--extern", f"{it}={library}"]
    for it in used[crate]:
        if it not in used:
            words += ["--extern", f"{it}={kit / 'rlibs' / f'{it}.rlib'}"]
    return [*words, "--antt-project", kit / "rattle" / "logic" / "antt-project.json", "--logic-built", kit / "logic_built"]


def failing(words):
    """Returns the equations that fail. Exits with the checker's messages if it reports another error."""
    ended = subprocess.run(words, capture_output=True, text=True, check=False)
    said = ended.stdout + ended.stderr
    errors = list(ERROR.finditer(said))
    equations = [it[2] for it in errors if "/proofs/" in it[1] and it[2] and not LIMIT.search(it[3])]
    others = [it[0] for it in errors if "/proofs/" not in it[1] or (it[2] is None and not LIMIT.search(it[3]))]
    if others or (ended.returncode != 0 and not equations):
        sys.exit("\n".join(others[:3]) or said[-2000:])
    return set(equations)


def stacks(changes, together):
    """Returns the changes in lists: each alone, or, with `together`, in as few lists as possible without two that
    touch."""
    found = []
    for change in changes:
        fits = (it for it in found if together and all(apart(change, other) for other in it))
        stack = next(fits, None)
        if stack is None:
            found.append([change])
        else:
            stack.append(change)
    return found


def apart(one, other):
    if one.equation == other.equation:
        return False
    if one.file != other.file:
        return True
    text = (ROOT / "crates" / one.file).read_text()
    first, second = text.index(one.old), text.index(other.old)
    return first + len(one.old) < second or second + len(other.old) < first


def main():
    parser = argparse.ArgumentParser(description=__doc__, formatter_class=argparse.RawDescriptionHelpFormatter)
    parser.add_argument("--stack", action="store_true", help="plant several changes together")
    parser.add_argument("--only", default="", metavar="WORD", help="plant only changes with this text in their names")
    args = parser.parse_args()
    chosen = [[it for it in changes if args.only in it.name] for changes in CHANGES.values()]
    good = True
    with tempfile.TemporaryDirectory() as place:
        folder = pathlib.Path(place)
        shutil.copytree(ROOT / "crates" / CRATE / "src", folder / "src")
        words = checking(folder / "src" / "lib.rt")
        for stack in [[], *(stack for changes in chosen for stack in stacks(changes, args.stack))]:
            put(definitions(), folder / "specs")
            files = {*(file_of(it.equation) for it in stack), *(it for it in FILES if it.stem in SHARED)} if stack else FILES
            put([*files, WORKED_SCHEME], folder / "proofs")
            for it in stack:
                plant(it, folder / "specs")
            equations = failing(words)
            if not stack and equations:
                sys.exit(f"with no change {', '.join(sorted(equations))} fail")
            for it in stack:
                refused = it.equation in equations
                good = good and refused
                print(f"{it.name}: {f'refused by {it.equation}' if refused else 'NOT REFUSED'}", flush=True)
    sys.exit(0 if good else 1)


if __name__ == "__main__":
    main()
