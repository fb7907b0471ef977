"""The whole walk: locals are allotted, parameters stored, tokens and what is owned taken apart; then the body."""
from .branches import cut_here, walk_body
from .loops import enter_loop, walk_loop
from .mir import Refusal
from .parameters import Lent, Value
from .text import address, cons


def walk_function(walk):
    """Walks the whole function; gives the lines of the walk itself."""
    _enter(walk)
    if walk.function.has_loop:
        walk.start = enter_loop(walk)
        walk.main = walk.taken_lines()
        walk.step("let fm = fmOf 𝓤 H (W .laws) 𝓣 in")
    elif walk.function.is_cut:
        cut_here(walk, 1)
    walk_body(walk, walk.function.body, walk_loop)
    if walk.laws[walk.ways_out:] and "?" not in walk.laws:
        raise Refusal("more laws than ways out")
    lines = walk.taken_lines()
    if walk.parts:
        walk.parts[-1]["lines"] = lines
        return walk.main
    return lines


def _enter(walk):
    """Walks the entry of the function."""
    function, params = walk.function, walk.params
    rows = cons([param.type.row for param in params])
    values = cons([param.value for param in params])
    walk.step(f"qed W ((Toks) ∷ ‵ (owns ({rows}) a at) ∷ []) ∵ enter ! C Λ code.function ({values}) _ $")
    for local in range(function.local_count):
        walk.binds(f"alloc1 ! (λ {address(local)}.")
    walk.step("alloc0 ! $ params1 ! $")
    walk.now.context = walk.in_order() + ["TOKS", "OWNS"]
    for local, param in enumerate(params, 1):
        walk.step(f"pass1 ! {walk.init(local, _typed(param))} $")
        if param.type.plain:
            walk.now.values[local] = Value(param.name, param.value, param.type, f"is-{param.name}")
        else:
            walk.now.values[local] = Lent(param)
        if param.opened:
            walk.now.lists[param.name] = (param.entry_list, None)
    walk.step("pass0 ! $")
    for life in range(function.lifetimes):
        walk.split("TOKS", [f"t{life}", "TOKS"])
    walk.drop("TOKS")
    for param in params:
        walk.split("OWNS", [f"own:{param.name}", "OWNS"], "fsplit")
        if param.type.plain:
            walk.drop(f"own:{param.name}")
    walk.drop("OWNS")


def _typed(param):
    """That a parameter's machine value has its type."""
    if param.type.plain:
        return param.type.typed(param.name, f"is-{param.name}")
    if param.type.slice:
        return f"(tt, (tt, (record {{ fits = {param.room} .0 }}, tt)))"
    return "(tt, tt)"
