"""The lemmas of a walk with a loop: its state, one turn, what comes before it, and the walk that enters them."""
from .text import addresses, spaced

STATE = "      "


def loop_lemmas(proof, turn):
    """The lines of the walk; `turn` are those of a turn and of what comes behind the loop."""
    walk, loop = proof.walk, proof.walk.loop
    hypotheses = walk.hypotheses()
    premises = " ".join(f"({name} : {fact})" for name, fact in hypotheses)
    cells = f"({addresses(proof.function.local_count)} : ℕ)"
    binders = " ".join(f"({name} : {kind})" for name, kind in walk.binders)
    lines = [
        "  " + spaced("module _ (𝓣 : Tables 𝓤 H)", proof.known("𝓣 .C"), premises, cells, "where"),
        "    abbrev C : Calls 𝓤 H", "    C = 𝓣 .C", "", "    abbrev Λ : Loops 𝓤 H", "    Λ = 𝓣 .Λ", "",
        "    abbrev En : Env 𝓤 H", f"    En = {proof.environment()}", "",
        "    " + spaced("module _", binders, "where")]
    lines += _state(loop)
    lines += [
        "      turns : (u : St) → Sq W (At u) (runs C Λ En mir.turn-1 (anyQ (Turned u)))", "      unfolding afterTurn",
        "      turns u =", *[f"          {line}" for line in turn], "",
        "    abbrev Start : List (Item 𝓤)", f"    Start = {walk.start}", "",
        "    begins : Sq W Start (runs C Λ En mir.t-1 (atRet En Post))", "    begins =",
        *[f"        {line}" for line in loop.begins], ""]
    given = "".join(f"→ {premise} " for premise in proof.triples("𝓣 .C") + [fact for _, fact in hypotheses])
    goal = f"ent 𝓤 ({proof.entry()}) (WpFn 𝓤 H (𝓣 .C) (𝓣 .Λ) code.function ({proof.values()}) Post)"
    names = "".join(f" {name}" for name, _ in hypotheses)
    return lines + [
        f"  walk : (𝓣 : Tables 𝓤 H) {given}→ {goal}", f"  walk 𝓣{proof.known_names()}{names} =",
        *[f"      {line}".replace("enter ! C Λ", "enter ! (𝓣 .C) (𝓣 .Λ)") for line in walk.main], ""]


def _state(loop):
    """The loop's state, which of two is nearer to the end, what is owned in it, and what a turn ends in."""
    bound = loop.bound
    after = f"(Wp 𝓤 H C Λ En mir.t-{loop.following} (atReturn 𝓤 H En Post))"
    outcome = f"(afterBlock 𝓤 H (afterSeq 𝓤 H {after} (atReturn 𝓤 H En Post)))"
    fields = [f"  pub {name} : {kind}" for thing in loop.carried for name, kind in thing.fields()]
    if loop.holds:
        fields.append(f"  pub held : {loop.holds}")
    lines = [
        "-- how many turns were made, and what they have changed", "pub record St : Type 0 where", "  pub i : ℕ",
        f"  pub le : i ≤ {bound}", *fields, "",
        "abbrev Nearer : St → St → Type 0", f"Nearer u v = {bound} - u .i < {bound} - v .i", "",
        "Nearer-wf : WellFounded Nearer",
        f"Nearer-wf = InvImage·wf (λ (u : St). {bound} - u .i) (Nat·lt-wfRel .wf)", "",
        "abbrev At : St → List (Item 𝓤)", f"At u = {loop.at}", "",
        "abbrev Turned : St → Out → SProp 𝓤",
        f"Turned u = afterTurn 𝓤 H (Below 𝓤 H A Nearer At u) {outcome}", ""]
    return [STATE + line if line else "" for line in lines]
