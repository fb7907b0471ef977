"""Bodies, and branches of which one arm returns; a body of several branches is cut into lemmas."""
from .calls import CallWalk
from .elements import index_proof, offset_base
from .exits import walk_return
from .mir import Refusal, callees, is_operation, is_statement, local_of, place, statement_text, statements
from .owned import items
from .statements import spell, walk_assignment
from .text import addresses, after_blank


def walk_body(walk, body, walk_loop):
    """Walks the statements of the function."""
    for number, statement in enumerate(body):
        walk.rest = body[number + 1:]
        walk.note(statement)
        if is_statement(statement, "if"):
            _walk_branch_of_body(walk, statement, number + 2)
        elif is_statement(statement, "block") and statement[1][0] == "loop" and walk.loop is None:
            walk_loop(walk, statement, number + 2)
        elif statement == "return":
            walk_return(walk, False)
        else:
            walk_statement(walk, statement)
            if is_statement(statement, "call") and walk.function.calls_in_a_row and callees(walk.rest):
                cut_here(walk, number + 2)


def walk_statement(walk, statement):
    """Walks an assignment or a call."""
    if is_statement(statement, "assign"):
        walk_assignment(walk, statement)
    elif is_statement(statement, "call"):
        CallWalk(walk, statement).run()
    else:
        raise Refusal(f"the statement `{statement_text(statement)}` in this place")


def walk_test(walk, operand):
    """Writes a branch's test, spelled out; gives its term."""
    local, path = place(operand[1])
    if path:
        raise Refusal(f"a branch on {operand}")
    spell(walk, local)
    walk.step(f"first ! $ branches ! {walk.load(operand)}")
    return walk.now.values[local].term


def environment(walk):
    """The locals' types and addresses, as a walk that is cut into lemmas names them."""
    return f"En {addresses(walk.function.local_count)}"


def _walk_branch_of_body(walk, statement, following):
    """Walks a branch that the function's own body has; what follows is t-following in the MIR."""
    cut = walk.function.branch_count > 1
    if cut and walk.function.has_loop:
        raise Refusal("several branches beside a loop")
    env = "En" if walk.function.has_loop else f"({environment(walk)})" if cut else "_"
    walk.names_mir = True
    fact = walk_branch(walk, statement, f"exec ! C Λ {env} mir.t-{following} (atRet {env} Post) $")
    if cut:
        cut_here(walk, following, fact)


def walk_branch(walk, statement, resumed):
    """Walks `if test { .. return }`: the arm first, then the step that goes on; gives what is known then, by name."""
    rest = walk.rest
    test = walk_test(walk, statement[1])
    walk.names.kit.add("Branch")
    walk.branches += 1
    number = "" if walk.branches == 1 else str(walk.branches)
    if statement[3] != "skip":
        raise Refusal("an `if` with two arms, or whose first arm goes on")
    before, depth = walk.now.copy(), walk.depth
    walk.binds(f"(λ on{number}. let t{number} = on-true {test} on{number} in")
    walk.in_arm = True
    _walk_arm(walk, statements(statement[2]))
    walk.in_arm = False
    walk.close_to(depth)
    walk.now = before
    walk.binds(f"(λ off{number}. let t{number} = off-false {test} off{number} in")
    walk.step(f"skips ! $ {resumed}")
    walk.rest = rest
    return f"t{number}", f"{test} ≡ false"


def _walk_arm(walk, body):
    """Walks the arm of a branch, which has to return."""
    for number, statement in enumerate(body):
        walk.rest = body[number + 1:]
        walk.note(statement)
        if statement == "return":
            walk_return(walk, True)
        elif is_statement(statement, "if"):
            raise Refusal("a branch within a branch")
        else:
            walk_statement(walk, statement)
    if body[-1] != "return":
        raise Refusal("an arm that does not return")


def cut_here(walk, following, test=None):
    """What is left goes into a lemma `part-N`: in one term it would be more than the checker's limit of steps.

    test: the name and the statement of what the branch just walked has found
    """
    addresses_alone = sorted(k for k in walk.now.stored if walk.now.values[k].machine is None)
    for local in addresses_alone:
        walk.step(f"forget ! {walk.position(f'c{local}')} refl $")
        walk.now.stored.discard(local)
    walk.names_mir = True
    order = walk.in_order()
    walk.keep(order)
    if test:
        walk.binders.append(test)
    given = [name for name, _ in walk.binders]
    if test and walk.index_terms["within"] and "in-slice" not in given:
        given.append(_bind_index(walk))
    if not walk.parts:
        outer = [name for name, _ in walk.hypotheses()] + addresses(walk.function.local_count).split()
        given = outer + given
    walk.step(f"part-{following}{after_blank(given)}")
    lines = walk.taken_lines()
    if walk.parts:
        walk.parts[-1]["lines"] = lines
    else:
        walk.main = lines
    env = environment(walk)
    premises = "".join(f"({name} : {kind}) → " for name, kind in walk.binders)
    goal = f"Sq W ({items(walk, order)}) (runs C Λ ({env}) mir.t-{following} (atRet ({env}) Post))"
    names = after_blank(name for name, _ in walk.binders)
    walk.parts.append({"number": following, "type": premises + goal, "names": names})


def _bind_index(walk):
    """Makes the fact that the index lies in the slice a premise of the lemma; gives its proof."""
    scale = next(statement for statement in walk.rest if is_operation(statement, "mul"))
    index = walk.now.values[local_of(scale[2][2])].term
    param = offset_base(walk)
    proof = index_proof(walk, param)
    walk.binders.append(("in-slice", f"{index} < length {param.entry_list}"))
    walk.index_terms["within"] = "in-slice"
    return proof
