"""The MIR of a crate as `rt mir` prints it: terms, functions, and a statement said in one line."""
import re


class Refusal(Exception):
    """A form that is not covered, or a description that does not fit its function."""


def read_program(text):
    """The term of a text `program TERM`: a word, or the list of a term's parts."""
    stack = [[]]
    for token in re.findall(r'"[^"]*"|[()]|[^\s()]+', text):
        if token == "(":
            stack.append([])
        elif token == ")":
            parts = stack.pop()
            stack[-1].append(parts[0] if len(parts) == 1 else parts)
        else:
            stack[-1].append(token)
    return stack[0][1]


def elements(term):
    """The elements of a list of the MIR."""
    found = []
    while term not in ("lnil", "tnil"):
        found.append(term[1])
        term = term[2]
    return found


def statements(term):
    """The statements of a body, in their order."""
    found = []
    while isinstance(term, list) and term[0] == "seq":
        found.append(term[1])
        term = term[2]
    return found + [term]


def place(term):
    """The local of a place, and the way from it: 'deref', or the number of a field."""
    path = [int(step[1]) if step[0] == "field" else "deref" for step in elements(term[2])]
    return int(term[1]), path


def local_of(operand):
    """The local that an operand reads or a place begins with."""
    return place(operand[1])[0]


def quoted(term):
    """A string of the MIR without its quotes."""
    return term.strip('"')


def is_int(operand):
    """Whether the operand is a literal number."""
    return isinstance(operand, list) and operand[0] == "int"


def is_read(operand):
    """Whether the operand reads a place."""
    return isinstance(operand, list) and operand[0] in ("copy", "move")


def operator(term):
    """The name of an operation on two operands."""
    return term if isinstance(term, str) else term[0]


def is_statement(statement, kind):
    """Whether the statement is of that kind: assign, call, if, block."""
    return isinstance(statement, list) and statement[0] == kind


def is_operation(statement, name):
    """Whether the statement assigns the result of the operation of that name."""
    return is_statement(statement, "assign") and statement[2][0] == "op2" and operator(statement[2][1]) == name


def callee(statement):
    """The path of the function that a call calls."""
    return quoted(statement[1][1][1])


def callees(body):
    """Every function that a body calls: its name in the logic, and its path, in the order of the text."""
    found = {}
    for path in re.findall(r"'fnRef', '\"([^\"]*)\"'", repr(body)):
        found.setdefault(path.split("::")[-1].replace("_", "-"), path)
    return found


def names_local(body, local):
    """Whether the statements name that local."""
    return f"'place', '{local}'," in repr(body)


def target(statement):
    """The place that a statement stores to, or None."""
    if is_statement(statement, "assign"):
        return place(statement[1])
    if is_statement(statement, "call"):
        return place(statement[3])
    return None


def sources(statement):
    """The locals that a statement reads, or through which it stores."""
    if is_statement(statement, "call") or is_statement(statement, "assign"):
        read = repr(statement[2])
    elif is_statement(statement, "if"):
        read = repr(statement[1])
    else:
        read = repr(statement)
    found = {int(k) for k in re.findall(r"'place', '(\d+)'", read)}
    stored = target(statement)
    return found | ({stored[0]} if stored and stored[1] else set())


def is_assigned(body, local):
    """Whether the statements store to the local itself."""
    return any(target(statement) == (local, []) for statement in body)


def is_live(body, local):
    """Whether the statements read what the local holds before they store to it."""
    for statement in body:
        if local in sources(statement):
            return True
        if target(statement) == (local, []):
            return False
    return False


def lent_mutably(body, locals_, local):
    """Whether the statements take a `&mut` of the local, or of what it refers to."""
    for statement in body:
        if is_statement(statement, "assign") and statement[2][0] == "addrOf" and place(statement[2][1])[0] == local:
            kind = locals_[place(statement[1])[0]]
            if kind[0] == "tyRef" and kind[2] == "mut":
                return True
    return False


def element_bases(body):
    """The slices and arrays of which an element's address is computed (their locals): whether one is stored to."""
    bases, pointers, stored = {}, {}, set()
    for statement in flat(body):
        if is_statement(statement, "assign") and statement[2][0] == "addrOf":
            pointers[place(statement[1])[0]] = place(statement[2][1])[0]
        elif is_operation(statement, "offset"):
            base = local_of(statement[2][2])
            base = pointers.get(base, base)
            pointers[place(statement[1])[0]] = base
            bases[base] = False
        elif target(statement) and target(statement)[1] == ["deref"]:
            stored.add(pointers.get(target(statement)[0]))
    return {base: base in stored for base in bases}


def flat(body):
    """All statements of a body, those of its arms and loops too."""
    for statement in body:
        yield statement
        if is_statement(statement, "if"):
            yield from flat(statements(statement[2]) + statements(statement[3]))
        elif is_statement(statement, "block") or is_statement(statement, "loop"):
            yield from flat(statements(statement[1]))


def place_text(term):
    """A place in one word: _3, _3.0, _3.*"""
    local, path = place(term)
    return f"_{local}" + "".join(".*" if step == "deref" else f".{step}" for step in path)


def operand_text(operand):
    """An operand in one word."""
    if is_read(operand):
        return place_text(operand[1])
    if is_int(operand):
        return operand[2]
    return "()" if operand == "unit" else str(operand)


def value_text(value):
    """The right side of an assignment in one line."""
    if value[0] == "rvOpd":
        return operand_text(value[1])
    if value[0] == "op2":
        return f"{operand_text(value[2])} {operator(value[1])} {operand_text(value[3])}"
    if value[0] == "addrOf":
        return f"& {place_text(value[1])}"
    if value[0] == "repeat":
        return f"[{operand_text(value[1])}; {value[2]}]"
    if value[0] == "aggregate":
        return "{" + ", ".join(operand_text(part) for part in elements(value[1])) + "}"
    return value[0]


def statement_text(statement):
    """A statement in one line, as it stands over its lines of the proof."""
    if isinstance(statement, str):
        return statement
    if statement[0] == "if":
        return f"if {operand_text(statement[1])}"
    if statement[0] == "call":
        arguments = ", ".join(operand_text(argument) for argument in elements(statement[2]))
        return f"{place_text(statement[3])} = {callee(statement).split('::')[-1]}({arguments})"
    if statement[0] == "assign":
        return f"{place_text(statement[1])} = {value_text(statement[2])}"
    return statement[0]


class Program:
    """The functions of one crate's MIR and of what is below it, and which of its types are enums."""

    def __init__(self, text):
        self.functions = {}
        self.enums = set()
        for declared in elements(read_program(text)):
            self.functions[quoted(declared[1])] = declared[2]
            for named in elements(declared[3]) if len(declared) > 3 else []:
                if named[2][0] == "variants":
                    self.enums.add(quoted(named[1]))


class Function:
    """One function of the MIR: its locals, the types of its parameters and of its result, its body."""

    def __init__(self, program, types, path):
        if path not in program.functions:
            raise Refusal(f"no function {path} in the MIR")
        item = program.functions[path]
        self.path = path
        self.lifetimes = int(item[1])
        self.parameter_count = int(item[3])
        self.locals = [local[1] for local in elements(item[4])]
        self.local_count = len(self.locals)
        self.result = types.read(self.locals[0])
        self.parameters = [types.read(local) for local in self.locals[1:self.parameter_count + 1]]
        self.body = statements(item[5])

    @property
    def has_loop(self):
        """Whether the body has a loop."""
        return any(is_statement(statement, "block") for statement in self.body)

    @property
    def branch_count(self):
        """How many statements of the body are branches."""
        return sum(1 for statement in self.body if is_statement(statement, "if"))

    @property
    def is_cut(self):
        """Whether its walk is cut into lemmas: several branches, or calls in a row."""
        return not self.has_loop and (self.branch_count > 1 or self.calls_in_a_row)

    @property
    def calls_in_a_row(self):
        """Whether the body is straight and has several calls."""
        calls = sum(1 for statement in self.body if is_statement(statement, "call"))
        return calls > 1 and self.branch_count == 0 and not self.has_loop
