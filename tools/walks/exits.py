"""A way out: the locals are freed, every `&mut` says its last value, and the law shows what the contract says."""
from .mir import Refusal
from .text import after_blank


def walk_return(walk, within):
    """Walks `return`; `within` says that it is in an arm of a branch."""
    where = f"(look ! {walk.position('c0')} refl) $"
    walk.step(f"returns-within ! Post refl {where}" if within else f"returns ! {where}")
    walk.forget(walk.now.stored)
    _free_locals(walk)
    for param in walk.mutables:
        if f"fin:{param.name}" not in walk.now.context:
            _give_up(walk, param)
    answer = walk.now.values[0]
    if "own:result" not in walk.now.context:
        row = answer.type.row
        walk.step(f"owned ! {row} (Is {row}) {answer.type.makes} {answer.term} _ {answer.proof} $")
        walk.now.context.insert(0, "own:result")
    walk.build([f"t{life}" for life in range(walk.function.lifetimes)], "join", "TOKS")
    walk.keep(["TOKS"] + [f"fin:{param.name}" for param in walk.mutables] + ["own:result"])
    walk.now.lasts["r"] = answer.term
    lasts = after_blank(walk.now.lasts[param.name] for param in walk.mutables)
    lengths = after_blank(walk.now.lasts["len:" + param.name] for param in walk.mutables if param.type.slice)
    walk.step(f"by ! (exits {answer.term} {answer.machine}{lasts} ({_law(walk)}){lengths})")


def _free_locals(walk):
    """Frees every local, from the first."""
    steps = []
    for local in range(walk.function.local_count):
        cell, dies = walk.position(f"c{local}"), walk.position(f"d{local}")
        move = "" if (cell, dies) == (0, 1) else f"move ! ({cell} ∷ {dies} ∷ []) $ "
        steps.append(f"{move}free1 ! $")
        walk.now.context = [label for label in walk.now.context if label not in (f"c{local}", f"d{local}")]
    walk.step(" ".join(steps) + " free0 ! $")


def _give_up(walk, param):
    """Gives up a `&mut` that is still held: what it is now is its last value."""
    walk.names.kit.add("Give")
    place = f"(named {param.life}) {param.lifetime} {param.type.of.row}"
    if param.type.slice:
        last, length = walk.now.lists[param.name]
        length = length or "refl"
    else:
        last, length = f"({param.name} .now)", "tt"
    if f"obs:{param.name}" in walk.now.context:
        walk.drop(f"bor:{param.name}")
        walk.move([f"obs:{param.name}"])
        law = f"(gives-up-obs 𝓤 H A W {place} γ-{param.name} {last})"
    else:
        walk.move([f"own:{param.name}"])
        first = not param.type.slice or walk.now.lists[param.name][1] is None
        slice_now = param.name if first else param.at(f"γ-{param.name}", last)
        kind = "slice" if param.type.slice else "ref"
        law = f"(gives-up-{kind} 𝓤 H A W {place} {slice_now} {param.value})"
    walk.step(f"use1 W (‵ ({param.finally_is(last)})) {law} $")
    walk.now.context[0] = f"fin:{param.name}"
    walk.now.lasts[param.name] = last
    walk.now.lasts["len:" + param.name] = length


def _law(walk):
    """The description's law for this way out, with `{PARAM}`, `{CALL.PARAM}` and `{r}` put in."""
    if not walk.contract.ensures:
        return "tt"
    if walk.ways_out >= len(walk.laws):
        raise Refusal("a way out with no law")
    law = walk.laws[walk.ways_out]
    walk.ways_out += 1
    return walk.said(law) if law != "?" else law
