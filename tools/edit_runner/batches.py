"""Puts edits of one crate into batches, checks a batch, and judges each of its edits."""

import dataclasses
import re

from . import checks
from .layout import block_names


@dataclasses.dataclass
class Judgement:
    """Whether an edit was refused as it must be, and what there is to say of it."""

    is_refused: bool
    text: str = ""


def batches_of(edits):
    """Returns the edits in as few batches as their functions allow. One of anything but a function's body goes alone."""
    left, made = [it for it in edits if it.shares], []
    while left:
        texts, names, batch, later = {}, set(), [], []
        for it in left:
            edited = None if names & it.known_as else it.applied(texts)
            if edited is None:
                later.append(it)
            else:
                texts, names = edited, names | it.known_as
                batch.append(it)
        made.append(batch)
        left = later
    return made + [[it] for it in edits if not it.shares]


def own_refusal(crate, function, verdicts):
    """Returns whether the prover by itself refuses a function, a closure of it or its impl; which one, or why not; and
    the verdicts that count with the function."""
    found = name_in(crate, function, verdicts)
    if not found:
        around = "impl" if function.block else "module"
        return False, f"the check names no function {function.name} of this {around}", []
    whole, of_impl, of_closures = found
    if verdicts.get(("impl", of_impl)) == "not proved":
        return True, whole, [("fn", whole)]
    counted = [("fn", whole), *(it for it in verdicts if it[0] == "fn" and it[1].startswith(of_closures))]
    for it in counted:
        if checks.is_by_itself(verdicts[it]):
            return True, it[1], counted
    return False, f"{whole}: {verdicts['fn', whole]}", counted


def name_in(crate, function, verdicts):
    """Returns the prover's name for a function, for its impl, and what the names of its closures begin with; or None."""
    if not function.block:
        stem = path_of(crate.name, function.modules)
        whole = f"{stem}::{function.name}"
        return (whole, "", f"{stem}::fn::{function.name}::") if ("fn", whole) in verdicts else None
    kind, names, base = block_names(function.block)
    # An impl is named below the module of its type, where that is a type of the crate.
    for modules in [function.modules, *sorted(crate.modules[kind] - {function.modules})]:
        stem = path_of(crate.name, modules)
        fit = [it for it in names if ("fn", f"{stem}::{it}::{function.name}") in verdicts]
        longer = re.compile(rf"{re.escape(f'{stem}::{base}')}\+[^:]+::{function.name}")
        fit += [name.split("::")[-2] for kind, name in verdicts if kind == "fn" and longer.fullmatch(name)]
        if fit:
            return f"{stem}::{fit[0]}::{function.name}", f"{stem}::{fit[0]}", f"{stem}::fn::{fit[0]}::{function.name}::"
    return None


def path_of(*parts):
    return "::".join(it for it in parts if it)


def judged(crate, edit, answer):
    """Returns what the answer to a check says of an edit, and the verdicts that count with its functions."""
    if answer.status == checks.NO_VERDICT:
        return Judgement(False, f"BAD EDIT: it did not reach the prover: {answer.fault()}"), []
    if answer.status == checks.PROVED:
        return Judgement(False, "NOT REFUSED: the crate is still proved with this edit"), []
    if not edit.shares:
        unread = answer.unread(edit.paths)
        return Judgement(not unread, f"BAD EDIT: the prover cannot read the edited text: {unread}" if unread else ""), []
    found = [own_refusal(crate, it, answer.verdicts) for it in edit.functions]
    counted = [verdict for _, _, verdicts in found for verdict in verdicts]
    refused = next((name for is_refused, name, _ in found if is_refused), None)
    if refused is None:
        return Judgement(False, f"NOT REFUSED by itself: {found[0][1][:200]}"), counted
    if answer.blames_names(crate.name, refused):
        note = "refused only because a proof file names what the edit took away: change a value and keep the names"
        return Judgement(True, note), counted
    return Judgement(True), counted


def likely_names(crate, function):
    """Returns what the prover may call a function, without its crate: the likeliest name first."""
    if not function.block:
        return [path_of(function.modules, function.name)]
    kind, names, _ = block_names(function.block)
    modules = [function.modules, *sorted(crate.modules[kind] - {function.modules})]
    return [path_of(stem, it, function.name) for stem in modules for it in names]


def try_batch(crate, batch, check, tell):
    """Checks a batch by check(texts, batch) and returns a judgement for each edit, and the seconds of processor that it took. What
    is not refused in company is tried alone, and a batch that does not compile is halved. Tells of each check. An edit that the time
    ran out for has no judgement."""
    texts = {}
    for it in batch:
        texts = it.applied(texts)
    try:
        answer = check(texts, batch)
    except checks.OutOfTime:
        return {}, 0
    count = f"{len(batch)} edits" if len(batch) > 1 else batch[0].name
    said = f"{crate.name}: {count} in one check, {answer.cpu:.0f} CPU s, {answer.wall:.0f} s"
    if answer.status == checks.NO_VERDICT and len(batch) > 1:
        tell(f"{said}: it does not compile: in halves")
        half = len(batch) // 2
        return merged(answer.cpu, [try_batch(crate, it, check, tell) for it in (batch[:half], batch[half:])])
    found, counted = {}, set()
    for it in batch:
        found[it], verdicts = judged(crate, it, answer)
        counted.update(verdicts)
    others = {it: verdict for it, verdict in answer.verdicts.items() if it[0] == "fn" and it not in counted}
    refused_beside = [name for (_, name), verdict in others.items() if checks.is_by_itself(verdict)]
    if refused_beside and all(it.shares for it in batch):
        said += f"; refused too, though no edit changes it: {', '.join(refused_beside[:4])}"
    again = [it for it in batch if not found[it].is_refused] if len(batch) > 1 else []
    said += f"; refused {sum(it.is_refused for it in found.values())}"
    tell(said + (f", again alone: {' '.join(it.name for it in again)}" if again else ""))
    # One that the time runs out for is neither refused nor let through.
    settled = {it: judgement for it, judgement in found.items() if it not in again}
    return merged(answer.cpu, [(settled, 0), *(try_batch(crate, [it], check, tell) for it in again)])


def merged(cpu, tried):
    judgements = {}
    for it, more in tried:
        judgements.update(it)
        cpu += more
    return judgements, cpu
