"""Swaps at the desk of drop and add: a student gives one section up and asks for another, in one row of a form.

The desk takes both requests one after the other. Where the other section has no seat the student has lost the first
one. So each swap that would end like that is found by the program's own replies, before anything is written, and left
out.
"""

from __future__ import annotations

from dataclasses import dataclass
from typing import Dict, List, Sequence, Tuple

from registrar import hall_desk, manifest, own_names, program, tell
from registrar.forms import Request

@dataclass(frozen=True)
class Swap:
    """A swap with the replies to both requests, and whether the student got the other section, at once or later."""

    drop: Request
    dropped: str
    add: Request
    added: str
    got: bool

    def loses(self) -> bool:
        """Whether the swap gives a seat up and gets none."""
        return self.dropped.startswith("dropped") and not self.got


@dataclass(frozen=True)
class Settled:
    """The requests that are taken, the program's answer to them, and the swaps that are left out."""

    asked: Tuple[Request, ...]
    answer: program.Answer
    left_out: Tuple[Swap, ...]

    @property
    def replies(self) -> List[str]:
        """The replies to the requests that are taken."""
        return hall_desk.replies_of(self.answer.lines)


def settle(found: manifest.Manifest, asked: Sequence[Request], answer: program.Answer) -> Settled:
    """Leaves out each swap that would lose a seat, the first one first; `answer` is the answer to all requests.

    Where the program ends with another status than 0, the answer has it.

    Each time the program is asked anew: where a swap is left out its seat is not free, and others wait further in
    front. So two students who exchange their seats both stay in, and whoever would lose a seat by it is left out in
    turn.
    """
    kept = tuple(asked)
    left_out: Tuple[Swap, ...] = ()
    life = tell.Life("")
    while True:
        found_now = [] if answer.status else swaps_of(kept, hall_desk.replies_of(answer.lines))
        loser = next((swap for swap in found_now if swap.loses()), None)
        if loser is None:
            return Settled(kept, answer, left_out)
        left_out += (loser,)
        kept = tuple(request for request in kept if request not in (loser.drop, loser.add))
        life.what = f"looking for swaps that would lose a seat: {len(left_out)} found"
        life.tick()
        answer = hall_desk.ask(found, hall_desk.as_stream(kept), life)


def swaps_of(asked: Sequence[Request], replies: Sequence[str]) -> List[Swap]:
    """The swaps among these requests, in the order of the rows."""
    rows: Dict[Tuple[str, int], Dict[str, int]] = {}
    for at, request in enumerate(asked):
        if request.is_swap:
            rows.setdefault(request.place, {})[request.words[0]] = at
    found = []
    for pair in rows.values():
        drop, add = pair["drop"], pair["add"]
        got = replies[add] in ("added", "holding") or is_called(asked[add], asked[add + 1 :], replies[add + 1 :])
        found.append(Swap(asked[drop], replies[drop], asked[add], replies[add], got))
    return found


def is_called(add: Request, asked: Sequence[Request], replies: Sequence[str]) -> bool:
    """Whether one of these later requests gives the section to the student, who waits for it."""
    _, who, what = add.words
    for one, reply in zip(asked, replies):
        words = reply.split(" ")
        if one.words[0] == "drop" and one.words[2:] == (what,) and words[0] == "dropped" and words[-1] == who:
            return True
    return False


def in_words(swap: Swap, own: own_names.Own, is_left_out: bool = False) -> str:
    """What became of a swap, in one line, with its place and whose it is."""
    who = own_names.spelt(own, "student", swap.drop.words[1])
    return f"{swap.drop.file} row {swap.drop.row}: {who} {outcome(swap, own, is_left_out)}"


def outcome(swap: Swap, own: own_names.Own, is_left_out: bool = False) -> str:
    """What became of a swap."""
    old, new = (own_names.spelt(own, "section", one.words[2]) for one in (swap.drop, swap.add))
    added = spelt(swap.added, own)
    if is_left_out:
        return f"keeps {old}; left out: {new} can not be had ({added})"
    if swap.loses():
        return f"gave up {old} and did not get {new} ({added})"
    if swap.dropped.startswith("dropped"):
        return f"has {new} in place of {old}"
    if swap.got:
        return f"has {new}; {old} was not given up ({swap.dropped})"
    return f"did not get {new} ({added}); {old} was not given up ({swap.dropped})"


def spelt(reply: str, own: own_names.Own) -> str:
    """A reply with its names in the school's own spelling."""
    words = reply.split(" ")
    if words[0] == "clash":
        return f"clash {own_names.spelt(own, 'section', words[1])}"
    if words[0] == "dropped" and len(words) == 4:
        return " ".join([*words[:3], own_names.spelt(own, "student", words[3])])
    return reply
