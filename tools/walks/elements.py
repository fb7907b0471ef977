"""Elements of a lent slice, or of a local array that is held as a row: index, address, read and store."""
from dataclasses import dataclass

from .mir import Refusal, element_bases, is_operation, is_read, local_of, place
from .parameters import ElementAddress, Lent, Parameter, Scaled, Value
from .text import address

@dataclass
class Row:
    """The elements that are looked into: where they lie, the list that they are now, and the element's type."""

    base: object        # a parameter, or the number of a local array
    block: str
    offset: str
    list: str
    length: str         # a proof that the list is as long as at first; None where it is the first list
    of: object

    @property
    def param(self):
        """The parameter, or None for a local array."""
        return self.base if isinstance(self.base, Parameter) else None

    @property
    def memory(self):
        """Block and offset."""
        return f"{self.block} {self.offset}"

    @property
    def laws(self):
        """The element type with its laws, as `elem-out` and `looks-slice` take them."""
        row = self.of.row
        return f"{row} (Is {row}) (shows 𝓤 H A {row}) ({self.of.vals}) ({self.of.tells})"


def row_of(walk, base):
    """The row of a parameter's slice, or of a local array."""
    if isinstance(base, Parameter):
        return Row(base, f"b-{base.name}", f"o-{base.name}", *walk.now.lists[base.name], base.type.of)
    return Row(base, address(base), "0", *walk.now.rows[base], walk.now.values[base].type.of)


def index_proof(walk, base):
    """The description's proof that the index is less than the length."""
    word = "within" if isinstance(base, Parameter) else "inside"
    term = walk.index_terms[word]
    if term is None:
        raise Refusal(f"an element is looked at: the description needs a line `{word}`")
    return f"({walk.said(term)})"


def index_now(walk, row, index):
    """The same of the list as it is now."""
    proof = index_proof(walk, row.base)
    return f"(subst (λ (n : ℕ). {index} < n) (sym {row.length}) {proof})" if row.length else proof


def split_own(walk, param):
    """Takes what a slice owns apart into its ghost value and its borrow, if that was not done yet."""
    if f"bor:{param.name}" in walk.now.context:
        return
    walk.move([f"own:{param.name}"])
    walk.step("fsplit ! $ drop ! $")
    if param.type.mutable:
        walk.step("fsplit ! $")
        walk.becomes(1, [f"obs:{param.name}", f"bor:{param.name}"])
    else:
        walk.step("fsplit ! $ drop ! $")
        walk.becomes(1, [f"bor:{param.name}"])


def walk_element(walk, statement):
    """Walks a statement that computes or uses an element's address; says whether it was one."""
    if is_operation(statement, "mul"):
        _scale(walk, statement)
    elif is_operation(statement, "offset"):
        _point(walk, statement)
    elif _element_stored(walk, statement):
        _store(walk, statement)
    elif _element_read(walk, statement):
        _read(walk, statement)
    else:
        return False
    return True


def _element_stored(walk, statement):
    """Whether the statement stores to an element."""
    local, path = place(statement[1])
    return path == ["deref"] and statement[2][0] == "rvOpd" \
        and isinstance(walk.now.values.get(local), ElementAddress)


def _element_read(walk, statement):
    """Whether the statement reads an element."""
    value = statement[2]
    if value[0] != "rvOpd" or not is_read(value[1]):
        return False
    local, path = place(value[1][1])
    return path == ["deref"] and isinstance(walk.now.values[local], ElementAddress)


def offset_base(walk):
    """What the next computed address is in: a parameter, or the number of a local array."""
    bases = element_bases(walk.rest)
    if not bases:
        raise Refusal("a product that is no element's offset")
    local = next(iter(bases))
    return local if isinstance(walk.now.values[local], Value) else walk.params[local - 1]


def _scale(walk, statement):
    """x = index * size"""
    local, value = place(statement[1])[0], statement[2]
    index, size = walk.now.values[local_of(value[2])].term, value[3][2]
    walk.names.cite("place-fits")
    base = offset_base(walk)
    if isinstance(base, Parameter):
        room = f"(length {base.entry_list}) {index} ({base.room} .1)"
    else:
        room = f"{walk.now.values[base].type.count} {index} (lit< tt)"
    fits = f"(place-fits {size} {room} {index_proof(walk, base)})"
    product = f"(bin ! {walk.load(value[2])} (lit ! tt) (record {{ fits = {fits} }}))"
    walk.assigns(product, local, f"(tt, record {{ fits = {fits} }})")
    walk.now.values[local] = Scaled(index, size)


def _point(walk, statement):
    """x = address + index * size"""
    local, value = place(statement[1])[0], statement[2]
    held = walk.now.values[local_of(value[2])]
    scaled = walk.now.values[local_of(value[3])] if is_read(value[3]) else None
    if not isinstance(scaled, Scaled):
        raise Refusal("a part of a slice that is no call's answer")
    row = row_of(walk, held.param if isinstance(held, Lent) else held.local)
    walk.assigns(f"(bin ! {walk.load(value[2])} {walk.load(value[3])} tt)", local, "(tt, tt)")
    cell = f"(λ (n : ℕ). ‵ (fat fullShare tyPtr {address(local)} 0 (vptr {row.block} n)))"
    place_is = f"(sym (place-is {scaled.size} {row.offset} {scaled.term}))"
    walk.step(f"rewrite ! {walk.position(f'c{local}')} {cell} {place_is} refl $")
    walk.now.values[local] = ElementAddress(row.base, scaled.term)


def _open(walk, row, storing):
    """Opens what the elements lie in; gives the share, how many things it took, and what they became."""
    param = row.param
    if param is None:
        walk.move([f"c{row.base}"])
        return "fullShare", 1, ["e", "eo", "es"]
    split_own(walk, param)
    if param.type.mutable:
        walk.move([f"obs:{param.name}", f"bor:{param.name}", f"t{param.life}"])
        walk.step(f"opens-slice ! tt {row.of.row} {row.list} {row.memory} $")
        return "fullShare", 3, ["e", "eo", "es", "eb", "eobs", "eauth"]
    if storing:
        raise Refusal("a store into a `&` slice")
    walk.looks += 1
    share = f"q-{walk.looks}"
    walk.move([f"bor:{param.name}", f"t{param.life}"])
    walk.binds(f"looks-slice ! tt {row.laws} {row.of.copy} {row.list} {row.memory} (λ {share}.")
    return share, 2, ["e", "eo", "es", "esh", f"bor:{param.name}"]


def _close(walk, row, share, new, same_length):
    """Closes it again, with the new list; `same_length` proves that it is as long as the one before."""
    if same_length == "refl":
        length = row.length
    else:
        length = f"({same_length} ∙ {row.length})" if row.length else same_length
    param = row.param
    if param is None:
        walk.becomes(3, [f"c{row.base}"])
        walk.now.rows[row.base] = (new, length)
    elif param.type.mutable:
        walk.step(f"closes-slice ! tt {row.of.row} {row.list} {new} {same_length} {row.memory} $")
        walk.becomes(6, [f"obs:{param.name}", f"bor:{param.name}", f"t{param.life}"])
        walk.now.lists[param.name] = (new, length)
    else:
        walk.step(f"shuts-slice ! tt {row.of.row} {share} {row.list} {row.memory} $")
        walk.becomes(5, [f"t{param.life}", f"bor:{param.name}"])


def _store(walk, statement):
    """*x = value"""
    pointer, operand = place(statement[1])[0], statement[2][1]
    target, value = walk.now.values[pointer], walk.now.values[local_of(operand)]
    row, index = row_of(walk, target.base), target.term
    within = index_now(walk, row, index)
    share, taken, opened = _open(walk, row, True)
    walk.binds(f"elem-out ! {row.laws} {share} {row.list} {index} {value.term} {row.memory} {within} (λ _.")
    walk.becomes(taken, opened)
    into = f"(from ! (hop ! (look ! {walk.position(f'c{pointer}')} refl) (stop !)))"
    stored = f"(store-raw ! 0 refl {value.type.typed(value.term, value.proof)})"
    owned = f"owned ! {row.of.row} (Is {row.of.row}) {row.of.makes} {value.term} _ {value.proof} $"
    walk.step(f"assigns ! (of-opd ! {walk.load(operand)}) {into} {stored} $ move ! (1 ∷ []) $ drop ! $ {owned} "
              "move ! (1 ∷ 0 ∷ []) $")
    put = f"{row.list} {index} {value.term}"
    walk.step(f"elem-put ! {row.of.row} {share} {put} ({value.machine} ∷ []) {row.memory} {within} $")
    _close(walk, row, share, f"(set {put})", f"(length-set {put})")


def _read(walk, statement):
    """x = *y"""
    local, pointer = place(statement[1])[0], local_of(statement[2][1])
    target = walk.now.values[pointer]
    row, index = row_of(walk, target.base), target.term
    within = index_now(walk, row, index)
    share, taken, opened = _open(walk, row, False)
    walk.looks += 1
    known = f"is-look{walk.looks}"
    default = f"({walk.description.default or '0'})"
    walk.names.cite(default)
    term = f"(getD {row.list} {index} {default})"
    machine = f"({row.of.val(term)})"
    walk.binds(f"elem-out ! {row.laws} {share} {row.list} {index} {default} {row.memory} {within} (λ {known}.")
    walk.becomes(taken, opened)
    loaded = f"(load ! (from ! (hop ! (look ! {walk.position(f'c{pointer}')} refl) (stop !))) (look-raw ! 0 refl))"
    walk.assigns(f"(of-opd ! {loaded})", local, row.of.typed(term, known))
    walk.bind_later(known, f"Is {row.of.row} {term} ({machine} ∷ [])")
    back = f"{row.list} {index} {default} ({machine} ∷ []) {row.memory} {within}"
    walk.step(f"elem-back ! {row.of.row} {share} {back} $")
    walk.now.values[local] = Value(term, machine, row.of, known)
    _close(walk, row, share, row.list, "refl")
