"""What is owned at a point, written out as a lemma of the proof states it."""
from .text import address, lifetime, share


def items(walk, labels):
    """What the labels name, as the list of things that a lemma owns."""
    return " ∷ ".join([_item(walk, label) for label in labels] + ["[]"])


def _item(walk, label):
    """What a label names."""
    if label[0] in "cd" and label[1:].isdigit():
        return _cell(walk, label[0], int(label[1:]))
    if label[0] == "t" and label[1:].isdigit():
        life = int(label[1:])
        return f"‵ (flft {lifetime(life)} {share(life)})"
    kind, name = label.split(":")
    if name in walk.held_parts:
        return f"‵ {walk.held_parts[name].own}"
    param = next(param for param in walk.params if param.name == name)
    if kind == "fin":
        return f"‵ ({param.finally_is(walk.now.lasts[name])})"
    row, held = param.type.of.row, walk.now.lists.get(name, (None, None))[0]
    if kind == "own":
        if not param.type.mutable or not param.type.slice or held == param.entry_list:
            return f"‵ {param.own}"
        return "‵ " + param.own_slice("MutSlice", param.lifetime, f"γ-{name}", held, param.value)
    if kind == "obs":
        return f"‵ (fobs γ-{name} (codedHoleys {row} .code (heres {row} {held})))"
    if param.type.mutable:
        return f"‵ (fbor {param.lifetime} (Held {row} (length {held}) {param.memory} γ-{name}))"
    parts = f"arr-parts (shares {row}) (length {held}) .part t {held} {param.memory}"
    return f"‵ (fshr-bor {param.lifetime} (λ t. {parts}))"


def _cell(walk, kind, local):
    """A local's cell, or the right to free it."""
    cell, at = walk.types.cell(walk.function.locals[local]), address(local)
    if kind == "d":
        return f"‵ (fdies {cell} {at})"
    if local in walk.now.rows:
        return f"‵ (row {walk.now.values[local].type.of.row} fullShare {walk.now.rows[local][0]} {at} 0)"
    if local in walk.now.stored:
        return f"‵ (fat fullShare {cell} {at} 0 {walk.now.values[local].machine})"
    return f"‵ (froom {cell} {at} 0)"
