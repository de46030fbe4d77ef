"""Reads what the prover says of a batch: which edits it refuses, and why."""
import re
from collections.abc import Sequence
from dataclasses import dataclass

from build import kit
from build.edits.batches import Placed, Texts
from build.edits.reading import label_of

VERDICT = re.compile(r"^fn (\S+): (.*)$", re.M)
# The last line of a check of some functions that came to its end.
LAST = re.compile(r"^only=\d+ (?:proved|holes)=\d+\n*\Z", re.M)
# A verdict on a function that has a proof, over functions without bodies one that has no hole of
# its own.
PROVED = re.compile(r"proved$|no holes$|depends on a hole in `\S+\.Answers\.unreachable-requires`")
# A line of the prover about a place in a file.
PLACED = re.compile(r"(?:note: )?(?:\./)?((?:src|proofs)/\S+?):(\d+):\d+:")
# A proof file that names what an edit took away, or that rests on such a proof: it says little of
# the contract.
NAMES = re.compile(r"(\./)?proofs/.*(has no field|is not in scope|has no `|was not admitted)")
# A part of a verdict that blames other functions.
OTHERS = re.compile(r"it (?:calls|passes the block) .*, which (?:is|are) not (?:proved|assumed)")
# A part of a verdict that names the proofs on which a function stands and that are refused: its
# own, or those of functions that it calls.
STANDS = re.compile(r"it stands on (.*?), which antt refuses")
PROOF = re.compile(r"`Rattle\.\w+\.proofs\.([^`]+)`")
# A verdict on a body that the prover has no rules for: no contract was tried, and a right body
# would fare the same.
UNCOVERED = "the borrow checker does not cover this function"
# A verdict on a body with a loop that no file tells anything of. A loop that may never end has no
# measure; but no clause was tried.
UNMEASURED = re.compile(r"no proof: expected .* in \./proofs/\S+/Invariants\.antt")
ONLY_A_NAME = (
    " (only because a proof file names what the edit took away, so this says little of the"
    " contract: change a value and keep the names)"
)
# The same of a limit of the prover, in words that `rt` begins with too, where an edit is tried
# alone.
BY_A_LIMIT = "(only by a limit of the prover"
ONLY_A_LIMIT = (
    f" {BY_A_LIMIT}, so this says less of the contract: choose a change that it refuses sooner)"
)
ONLY_A_LOOP = (
    " (only because it has a loop without a measure or an invariant, so no clause was tried)"
)
# The refusals that the gate prints.
POOR = ONLY_A_NAME, BY_A_LIMIT, ONLY_A_LOOP


@dataclass(frozen=True)
class Outcome:
    """What became of an edit."""

    # In words, as it is printed.
    text: str
    is_refused: bool
    is_alone: bool = False
    # How long its function took in a batch.
    seconds: float = 0

    @property
    def is_poor(self) -> bool:
        """Whether it is refused for a reason that says little of the contract."""
        return any(text in self.text for text in POOR)


def without_marks(path: Sequence[str]) -> list[str]:
    """The parts of a path of the prover's without the word that marks those of closures, and
    without the mark of a function that calls itself."""
    return [text.removeprefix("+") for text in path if text != "fn"]


def begins_with(path: Sequence[str], own: Sequence[str]) -> bool:
    """Whether a path of the prover's is this one, or that of a closure in it."""
    return without_marks(path)[: len(own)] == list(own)


def belongs_to(placed: Placed, path: Sequence[str]) -> bool:
    """Whether a path of the prover's names the function of an edit or a closure in it: of a closure
    in `a::f` it begins with `a::fn::f`."""
    return begins_with(path, placed.path.split("::"))


def is_about(placed: Placed, line: str) -> bool:
    """Whether a line of the prover is about a place in the function of an edit."""
    at = PLACED.match(line)
    if not at:
        return False
    if at[1].startswith("proofs/"):
        return belongs_to(placed, at[1].split("/")[1:])
    return at[1] == placed.edit.file and placed.first <= int(at[2]) <= placed.last


def is_own(verdict: str, path: Sequence[str]) -> bool:
    """Whether a verdict on the function of a path says that it has no proof, and not only because
    of others."""
    if verdict.startswith("not proved"):
        stands, own = STANDS.search(verdict), without_marks(path)
        names = [found.split(".") for found in PROOF.findall(stands[1])] if stands else []
        return not names or any(begins_with(name, own) for name in names)
    reasons = verdict.removeprefix("no proof: ").split("; ")
    return verdict.startswith("no proof") and not all(
        OTHERS.fullmatch(reason) for reason in reasons
    )


def own_failures(said: str) -> list[tuple[list[str], str]]:
    """The functions that have no proof for a reason of their own: the parts of their paths below
    the crate, and the verdict on each."""
    found = [(path.split("::")[1:], words) for path, words in VERDICT.findall(said)]
    return [(path, words) for path, words in found if is_own(words, path)]


def judged(placed: Placed, said: str) -> Outcome | None:
    """What a check says of an edit's own function: the outcome, or nothing where it doesn't show
    that the edit is refused."""
    edit = placed.edit
    label = label_of(edit.crate, edit.path)
    verdicts = [words for path, words in own_failures(said) if belongs_to(placed, path)]
    if not verdicts:
        return None
    if any(UNCOVERED in verdict for verdict in verdicts):
        said = f"{label}: BAD EDIT: no contract was tried: {verdicts[0]}"
        return Outcome(said, is_refused=False)
    about = [line for line in said.splitlines() if is_about(placed, line)]
    told = [line for line in about if ": error" in line or line.startswith("note: ")]
    reason = next((line for line in told if not NAMES.match(line)), "")
    why = (reason or (told or verdicts)[0])[:160]
    only = only_why(told, reason, verdicts)
    return Outcome(f"{label}: refused, as it must be{only}: {why}", is_refused=True)


def only_why(told: Sequence[str], reason: str, verdicts: Sequence[str]) -> str:
    """Why a refusal says little, if it does."""
    if all(UNMEASURED.match(verdict) for verdict in verdicts):
        return ONLY_A_LOOP
    if told and not reason:
        return ONLY_A_NAME
    return ONLY_A_LIMIT if any(kit.LIMITS.search(text) for text in told) else ""


def blames_another(line: str, texts: Texts) -> bool:
    """Whether a line of the prover refuses something in a proof file of no function with an edit,
    such as a lemma, and not only since it rests on what was refused."""
    at = PLACED.match(line)
    if not at or not at[1].startswith("proofs/"):
        return False
    is_refused = ": error" in line and "was not admitted" not in line
    # (the proofs of a cycle of calls have its name)
    return (
        is_refused
        and "/+" not in at[1]
        and not any(is_about(placed, line) for placed in texts.placed)
    )


def is_judged(status: int, said: str, texts: Texts) -> bool:
    """Whether a check of a batch came to its end, and blames nothing but functions with an edit."""
    if status != 1 or not LAST.search(said) or kit.STALE.search(said):
        return False
    lines = said.splitlines()
    if any(kit.is_unread(line, texts.sources) or blames_another(line, texts) for line in lines):
        return False
    paths = [path for path, _ in own_failures(said)]
    are_known = all(any(belongs_to(placed, path) for placed in texts.placed) for path in paths)
    return are_known and are_proved(texts, said)


def are_proved(texts: Texts, said: str) -> bool:
    """Whether each function without an edit that has its body has a proof, or has none only because
    of others."""
    edited = {placed.path for placed in texts.placed}
    verdicts = {path.partition("::")[2]: words for path, words in VERDICT.findall(said)}
    controls = [(text, verdicts.get(text, "")) for text in texts.only if text not in edited]
    return all(is_proved(path, words) for path, words in controls)


def is_proved(path: str, verdict: str) -> bool:
    """Whether a verdict says that a function has a proof, or has none only because of others."""
    is_by_others = verdict.startswith("no") and not is_own(verdict, path.split("::"))
    return bool(PROVED.match(verdict)) or is_by_others
