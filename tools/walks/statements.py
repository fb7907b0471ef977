"""Assignments to a local: literals, copies, lengths, comparisons, addresses and slices."""
from .elements import walk_element
from .mir import Refusal, elements, is_int, is_read, local_of, operator, place, statement_text
from .parameters import ArrayAddress, Lent, Value
from .text import address
from .valuetypes import Boolean, Number, Unit

COMPARISONS = {"eq": "(eqb {} {})", "ne": "(not (eqb {} {}))", "lt": "(ltb {} {})", "le": "(leb {} {})"}


def truth(term):
    """A value of the type bool that is spelled out."""
    return Value(term, f"(vbool {term})", Boolean(), "refl")


def spell(walk, local):
    """Spells the machine value of a number or a bool out in the local's cell, as a comparison and a branch need it."""
    value = walk.now.values[local]
    if not isinstance(value, Value) or value.machine.startswith(("(vint", "(vbool")):
        return
    if isinstance(value.type, Boolean):
        spelled, cell, proof = truth(value.term), "tyBool", f"(ap only {value.proof})"
    elif isinstance(value.type, Number) and not value.machine.startswith("v-"):
        machine = f"(vint w{value.type.bits} {value.term})"
        spelled = Value(value.term, machine, value.type, f"(refl, {value.proof} .1)")
        cell, proof = f"(tyInt w{value.type.bits})", f"(ap only ({value.type.tells} {value.term} _ {value.proof}))"
    else:
        return
    cells = f"(λ (v : Val). ‵ (fat fullShare {cell} {address(local)} 0 v))"
    walk.step(f"rewrite ! {walk.position(f'c{local}')} {cells} {proof} refl $")
    walk.now.values[local] = spelled


def literal(operand):
    """The value of a literal number."""
    bits, term = operand[1], operand[2]
    return Value(term, f"(vint w{bits} {term})", Number(int(bits)), "(refl, lit< tt)")


def walk_assignment(walk, statement):
    """Walks one assignment."""
    if walk_element(walk, statement):
        return
    (local, path), value = place(statement[1]), statement[2]
    if path:
        raise Refusal(f"a store through {statement_text(statement)}")
    kinds = {"rvOpd": _operand, "op2": _comparison, "addrOf": _address, "aggregate": _slice, "repeat": _repeat}
    held = kinds[value[0]](walk, local, value) if value[0] in kinds else None
    if held is None:
        raise Refusal(f"the assignment {statement_text(statement)}")
    walk.now.values[local] = held


def _operand(walk, local, value):
    """x = y, x = 1, x = true, x = (), x = slice.len()"""
    operand = value[1]
    if operand == "unit":
        walk.assigns("(of-opd ! (unit-lit !))", local, "(tt, tt)")
        return Value("tt", "vunit", Unit(), "refl")
    if operand in ("true", "false"):
        walk.assigns(f"(of-opd ! ({operand}-lit !))", local, "(tt, tt)")
        return truth(operand)
    if is_int(operand):
        walk.assigns(f"(of-opd ! {walk.load(operand)})", local, "(tt, record { fits = lit< tt })")
        return literal(operand)
    if not is_read(operand):
        return None
    source, path = place(operand[1])
    held = walk.now.values[source]
    if not path and isinstance(held, Value):
        walk.assigns(f"(of-opd ! {walk.load(operand)})", local, held.type.typed(held.term, held.proof))
        return held
    if path == [1] and isinstance(held, Lent):
        return _length(walk, local, operand, held.param)
    return None


def _length(walk, local, operand, param):
    """x = slice.len()"""
    fits = f"{param.room} .0"
    walk.assigns(f"(of-opd ! {walk.load(operand)})", local, f"(tt, record {{ fits = {fits} }})")
    term = f"(length ({param.name} .now))"
    return Value(term, f"(vint w64 {term})", Number(64), f"(refl, {fits})")


def _comparison(walk, local, value):
    """x = y < z and the like"""
    form = COMPARISONS.get(operator(value[1]))
    if form is None:
        return None
    for side in value[2:4]:
        if is_read(side) and not place(side[1])[1]:
            spell(walk, local_of(side))
    sides = [side[2] if is_int(side) else walk.now.values[local_of(side)].term for side in value[2:4]]
    walk.assigns(f"(bin ! {walk.load(value[2])} {walk.load(value[3])} tt)", local, "(tt, tt)")
    return truth(form.format(*sides))


def _repeat(walk, local, value):
    """x = [y; n]"""
    operand, count = value[1], value[2]
    one = literal(operand) if is_int(operand) else walk.now.values[local_of(operand)]
    kind = walk.types.read(walk.function.locals[local])
    term = f"(replicate {{A = {kind.of.denotation}}} {count} {one.term})"
    machine = f"(vstruct (ofList (replicate {count} {one.machine})))"
    walk.names.kit.add("Arrays")
    proof = f"(repeat-is {kind.of.row} {one.term} {one.machine} {one.proof} {count})"
    walk.assigns(f"(rep ! {count} {walk.load(operand)})", local, kind.typed(term, proof))
    return Value(term, machine, kind, proof)


def _address(walk, local, value):
    """x = & y, and x = & *y of a slice or a reference, which is y itself"""
    source, path = place(value[1])
    cell = walk.position(f"c{source}")
    if not path:
        way = "stop !"
    elif path[0] == 0:
        way = f"fld ! refl (hop ! (look-in ! {cell} (sub ! 0 refl (whole !))) (stop !))"
    else:
        way = f"hop ! (look ! {cell} refl) (stop !)"
    walk.assigns(f"(addr ! (from ! ({way})))", local, "(tt, tt)")
    if not path:
        return ArrayAddress(source)
    held = walk.now.values[source]
    return Lent(held.param, is_address=True) if path[0] == 0 else held


def _slice(walk, local, value):
    """x = a slice of what an address stands for, with its length"""
    kind = walk.function.locals[local]
    if not (isinstance(kind, list) and kind[0] == "tyStruct" and kind[1] == '"&[]"'):
        return None
    base, length = elements(value[1])
    held = walk.now.values[local_of(base)]
    if isinstance(held, ArrayAddress):
        fits, result = "lit< tt", ArrayAddress(held.local, f"(sliceVal ({address(held.local)}, 0) {length[2]})")
    elif held.param.type.slice:
        fits, result = f"{held.param.room} .0", Lent(held.param)
    else:
        return None
    parts = f"(and-then ! {walk.load(base)} (and-then ! {walk.load(length)} (no-more !)))"
    walk.assigns(f"(agg ! {parts})", local, f"(tt, (tt, (record {{ fits = {fits} }}, tt)))")
    return result
