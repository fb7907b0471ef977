"""Calls: the arguments are given or lent, the callee's contract is asked, and what it ensures is heard."""
from .loans import Argument, ArrayLoan, Call, SliceLoan, is_loan
from .mir import Function, Refusal, callee, elements, is_int, place, statement_text
from .parameters import ArrayAddress, Lent, PartOf, Value
from .statements import literal, truth
from .text import dashed, lifetime, product, projection, separated, share, tuple_of
from .valuetypes import Pointer


class CallWalk:
    """The walk of one call."""

    def __init__(self, walk, statement):
        self.walk = walk
        self.statement = statement
        self.path = callee(statement)
        self.function = Function(walk.program, walk.types, self.path)
        self.contract = walk.sources.contract(self.path)
        self.operands = elements(statement[2])
        self.base = dashed(self.path.split("::")[-1])
        self.target, target_path = place(statement[3])
        if target_path:
            raise Refusal(statement_text(statement))
        if self.path == walk.function.path:
            raise Refusal("a call of itself")
        if walk.calls.setdefault(self.base, self.path) != self.path:
            raise Refusal(f"two callees named {self.base}")
        walk.names.called_uses.update(self.contract.uses)
        walk.call_counts[self.base] = walk.call_counts.get(self.base, 0) + 1
        count = walk.call_counts[self.base]
        self.number = "" if count == 1 else str(count)
        self.label = f"{self.base}{self.number}"
        if self.contract.requires and self.label not in walk.description.requires:
            raise Refusal(f"{self.path} has a `requires`: the description needs a line `requires {self.label} TERM`")

    @property
    def parameters(self):
        """The callee's parameters: number, name and type."""
        pairs = zip(self.contract.names, self.function.parameters)
        return [(number, name, kind) for number, (name, kind) in enumerate(pairs)]

    def run(self):
        """Writes the call."""
        self._give()
        self._ask()
        self._hear()
        self._land()
        self._take_back()

    # the arguments

    def _held(self, operand):
        """What an operand holds."""
        if operand in ("true", "false"):
            return truth(operand)
        if is_int(operand):
            return literal(operand)
        if operand[0] not in ("copy", "move") or place(operand[1])[1]:
            raise Refusal(statement_text(self.statement))
        return self.walk.now.values[place(operand[1])[0]]

    def _is_lent(self, held, kind):
        """Whether an argument is lent for this call alone."""
        if isinstance(held, ArrayAddress):
            return True
        return isinstance(held, Lent) and is_loan(self.walk, held.param, kind)

    def _give(self):
        """Gives or lends every argument."""
        held = [self._held(operand) for operand in self.operands]
        kinds = self.function.parameters
        call = Call(self.label, sum(1 for one, kind in zip(held, kinds) if self._is_lent(one, kind)))
        self.arguments = []
        for (number, name, kind), one in zip(self.parameters, held):
            if isinstance(kind, Pointer):
                raise Refusal(f"{self.path}: the parameter `{name}`, a reference of a kind that is not covered")
            if isinstance(one, ArrayAddress):
                argument = ArrayLoan(self.walk, call, number, one, kind, name).begin()
            elif isinstance(one, Value):
                argument = self._plain(one)
            elif isinstance(one, Lent) and is_loan(self.walk, one.param, kind):
                argument = SliceLoan(self.walk, call, number, one.param, kind, name).begin()
            elif isinstance(one, Lent):
                argument = self._passed_on(number, one.param)
            elif isinstance(one, PartOf):
                argument = self._copied(number, one.term, one.machine, one.own, one.type)
            else:
                raise Refusal(f"{statement_text(self.statement)}: an argument of another kind")
            self.arguments.append(argument)
        self._lifetimes()

    def _plain(self, value):
        """A value that is passed."""
        walk, row = self.walk, value.type.row

        def make():
            """Makes what the callee gets with it."""
            walk.step(f"owned ! {row} (Is {row}) {value.type.makes} {value.term} _ {value.proof} $")
            walk.now.context.insert(0, "made")
        return Argument(value.term, value.machine, f"({row} .own {value.term} ({value.machine} ∷ []))", make)

    def _passed_on(self, number, param):
        """A parameter that is passed on: a `&` is copied, a `&mut` is given for good."""
        walk, kind = self.walk, param.type
        if not kind.mutable:
            return self._copied(number, param.name, param.value, param.own, kind)
        argument = Argument(
            param.name, param.value, param.own, f"own:{param.name}", referred=f"{param.name} .now",
            life=param.lifetime, share=param.share, token=f"t{param.life}")
        if not kind.slice and walk.used_later(param):
            raise Refusal(f"{param.name} is passed on twice")
        if kind.slice:
            held, length = walk.now.lists[param.name]
            argument.referred = held
            if length is not None:
                argument.term = param.at(f"γ-{param.name}", held)
            if held != param.entry_list:
                argument.own = param.own_slice("MutSlice", param.lifetime, f"γ-{param.name}", held, param.value)
        argument.end = lambda last, same_length: self._given_up(number, param, last, same_length)
        return argument

    def _copied(self, number, name, value, own, kind):
        """A `&[T]`, which is copied: a parameter, or a part of one."""
        walk, life = self.walk, lifetime(kind.life)
        law = f"(shr-slice-copy 𝓤 H A W (named {kind.life}) {life} {kind.of.row} .twice"
        walk.move([f"own:{name}"])
        walk.step(f"use1 W (‵ {own} ⊛ ‵ {own}) {law} {name} ({value} ∷ [])) $ split ! $")
        walk.becomes(1, [f"own:{name}", f"pass{number}"])
        return Argument(name, value, own, f"pass{number}", referred=f"{name} .now", life=life, share=share(kind.life),
                        token=f"t{kind.life}")

    def _lifetimes(self):
        """The callee's lifetimes, as the arguments say them."""
        count = self.function.lifetimes
        self.lives, self.shares, self.tokens = [None] * count, [None] * count, [None] * count
        for kind, argument in zip(self.function.parameters, self.arguments):
            if kind.life is None:
                continue
            if self.lives[kind.life] not in (None, argument.life):
                raise Refusal(f"{self.path}: one lifetime for two arguments")
            self.lives[kind.life] = argument.life
            self.shares[kind.life] = argument.share
            self.tokens[kind.life] = argument.token
        if len(set(self.tokens)) < count:
            raise Refusal(f"{self.path}: two of its lifetimes are one here")

    # the contract

    def _ask(self):
        """Meets the callee's precondition and makes the call."""
        walk, name = self.walk, f"c-{self.base}"
        walk.build(self.tokens, "join", "ctoks")
        walk.build([argument.give for argument in self.arguments], "fjoin", "cowns")
        walk.move(["ctoks", "cowns"])
        pairs = [f"‵ (flft {life} {part})" for life, part in zip(self.lives, self.shares)]
        self.token_items = " ⊛ ".join(pairs + ["‵ ftrue"])
        self.lives_term = tuple_of(self.lives)
        self.terms = tuple_of([argument.term for argument in self.arguments])
        machines = tuple_of([f"{argument.machine} ∷ []" for argument in self.arguments])
        ghost = f"(({self.lives_term}, {tuple_of(self.shares)}, tt, {self.terms}, {machines}), tt)"
        owned = separated([argument.own for argument in self.arguments])
        meets = "join ! $ frame ! $ done !"
        if self.contract.requires:
            shares = tuple_of(self.shares)
            entry = f"onEntry 𝓤 H A {name}′.signature {self.lives_term} {shares} {self.terms} {machines}"
            meets = f"says ! {{P = {entry}}} ({walk.said(walk.description.requires[self.label])}) $ join ! $ done !"
        walk.step(f"use2 W (raw ({name} 𝓤 H A mem run .pre {ghost})) "
                  f"(qed W (({self.token_items}) ∷ ‵ ({owned}) ∷ []) ∵ {meets}) $")
        walk.becomes(2, ["post"])
        loads = "(no-more !)"
        for operand in reversed(self.operands):
            loads = f"(and-then ! {walk.load(operand)} {loads})"
        walk.binds(f"calls-at ! fm ({name} 𝓤 H A mem run) known-{self.base} {ghost} {loads} (λ w-{self.label}.")

    def _result(self):
        """The type of the answer, at the lifetimes of the caller."""
        result = self.function.result
        if not result.plain:
            tokens = [argument.token for kind, argument in zip(self.function.parameters, self.arguments)
                      if kind.life == result.life and argument.token.startswith("t")]
            if not tokens:
                raise Refusal(f"{statement_text(self.statement)}: a part of what is lent for the call alone")
            result = type(result)(result.of, int(tokens[0][1:]))
        return result

    def _hear(self):
        """Takes what the call ensures: the answer, the last values, and the fact."""
        walk, label, name = self.walk, self.label, f"c-{self.base}"
        answer, machine, lasts = f"r-{label}", f"w-{label}", f"z-{label}"
        self.result = self._result()
        own = f"‵ ({self.result.row} .own {answer} ({machine} ∷ []))"
        ensured = (f"raw (ensured 𝓤 H A {name}′.ended ({name}′.clauses 𝓤 H A mem run) {self.lives_term} {self.terms} "
                   f"tt {answer})")
        walk.step(f"use1 W (later (some (λ ({answer} : {self.result.denotation}). "
                  f"(({self.token_items}) ⊛ {own}) ⊛ {ensured}))) (id⊢ 𝓤 _) $ await ! tt $")
        walk.binds(f"pick ! (λ {answer}.")
        walk.step("split ! $")
        walk.becomes(1, ["TR", "ens"])
        walk.move(["ens"])
        self.lasts = {named: f"({lasts}{projection(number)})" for number, named, kind in self.parameters
                      if kind.mutable}
        spoken = f"{self.base.replace('-', '_')}{self.number}"
        for named, last in self.lasts.items():
            walk.now.lasts[f"{spoken}.{named}"] = last
        arguments = [(named, kind, argument.term, argument.referred) for (_, named, kind), argument
                     in zip(self.parameters, self.arguments)]
        fact = None
        if self.contract.ensures:
            fact = walk.names.fact(self.contract.ensures, self.contract.uses, arguments, self.lasts, answer)
        clause = f"fact 𝓤 ({fact})" if fact else "emp 𝓤"
        last_types = product([f"({kind.last})" for kind in self.function.parameters])
        said = f"‵ (lasts {name}′.ended {self.lives_term} {self.terms} {lasts})"
        walk.step(f"use1 W (some (λ ({lasts} : {last_types}). {said} ⊛ raw ({clause}))) (id⊢ 𝓤 _) $")
        walk.binds(f"pick ! (λ {lasts}.")
        walk.step("split ! $")
        walk.becomes(1, ["LASTS", "fact"])
        if fact:
            walk.move(["fact"])
            walk.binds(f"heard ! ({fact}) (λ e-{label}.")
            walk.now.context.pop(0)
        else:
            walk.drop("fact")
        self._tell(spoken, fact, last_types)

    def _tell(self, spoken, fact, last_types):
        """Keeps what a law can name, and what a lemma further on takes."""
        walk, label = self.walk, self.label
        walk.facts += [f"r-{label} : {self.result.denotation}"] + ([f"e-{label} : {fact}"] if fact else [])
        walk.facts += [f"{{{spoken}.{name}}} : {kind.last}" for _, name, kind in self.parameters if kind.mutable]
        walk.bind_later(f"w-{label}", "Val")
        walk.bind_later(f"r-{label}", self.result.denotation)
        if self.lasts:
            walk.bind_later(f"z-{label}", last_types)
        if fact:
            walk.bind_later(f"e-{label}", fact)
        walk.bind_later(f"is-{label}", f"Is {self.result.row} r-{label} (w-{label} ∷ [])")
        for (_, name, kind), argument in zip(self.parameters, self.arguments):
            if kind.mutable and kind.slice:
                same = f"length {self.lasts[name]} ≡ length ({argument.referred})"
                walk.bind_later(f"len-{label}-{name}", same)
                walk.facts.append(f"len-{label}-{name} : {same}")

    def _land(self):
        """Takes the last values and the tokens apart, and stores the answer."""
        walk, label = self.walk, self.label
        for number, name, kind in self.parameters:
            walk.split("LASTS", ["L", "LASTS"], "fsplit")
            if kind.mutable and kind.slice:
                walk.step("fsplit ! $")
                walk.becomes(1, [f"fin{number}", "eq"])
                walk.move(["eq"])
                walk.binds(f"feqL ! (λ len-{label}-{name}.")
                walk.now.context.pop(0)
            elif kind.mutable:
                walk.now.context[0] = f"fin{number}"
            else:
                walk.drop("L")
        walk.drop("LASTS")
        walk.split("TR", ["CT", "ownr"])
        for token in self.tokens:
            walk.split("CT", [token, "CT"])
        walk.drop("CT")
        walk.move(["ownr"])
        row, answer, machine, known = self.result.row, f"r-{label}", f"w-{label}", f"is-{label}"
        walk.binds(f"peeks ! {row} (Is {row}) (shows 𝓤 H A {row}) {answer} ({machine} ∷ []) (λ {known}.")
        if self.result.mutable and self.target != 0:
            raise Refusal(f"{statement_text(self.statement)}: a part of a `&mut` slice that is not answered at once")
        walk.step(f"land ! (from ! (stop !)) {walk.init(self.target, self.result.typed(answer, known))} $")
        if self.result.plain:
            walk.drop("ownr")
            walk.now.values[self.target] = Value(answer, machine, self.result, known)
        else:
            part = PartOf(answer, machine, self.result)
            walk.now.context[0] = f"own:{answer}" if self.target else "own:result"
            walk.now.values[self.target] = walk.held_parts[answer] = part

    def _take_back(self):
        """Ends the loans."""
        for (_, name, _), argument in zip(self.parameters, self.arguments):
            if argument.end:
                argument.end(self.lasts.get(name), f"len-{self.label}-{name}")

    def _given_up(self, number, param, last, same_length):
        """A `&mut` that was given for good: what says its last value is kept."""
        walk = self.walk
        walk.now.context[walk.position(f"fin{number}")] = f"fin:{param.name}"
        length = walk.now.lists.get(param.name, (None, None))[1]
        walk.now.lasts[param.name] = last
        walk.now.lasts["len:" + param.name] = f"({same_length} ∙ {length})" if length else same_length
        if param.type.slice:
            walk.now.lists[param.name] = None
