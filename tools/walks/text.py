"""Writing terms of the logic: lists, tuples, projections, names with a number, and names replaced in a text."""
import re

SUBSCRIPTS = str.maketrans("0123456789", "₀₁₂₃₄₅₆₇₈₉")


def sub(number):
    """The number as a subscript."""
    return str(number).translate(SUBSCRIPTS)


def address(local):
    """The address of a local."""
    return f"l{sub(local)}"


def addresses(count):
    """The addresses of the locals 0 to count - 1, parted by blanks."""
    return " ".join(address(k) for k in range(count))


def lifetime(number):
    """The lifetime of that number of the function's own."""
    return f"κ{sub(number)}"


def share(number):
    """The share of the lifetime of that number that the function holds."""
    return f"q{sub(number)}"


def cons(items):
    """The list of the items."""
    return " ∷ ".join([str(item) for item in items] + ["[]"])


def tuple_of(items):
    """The items as nested pairs that end in tt."""
    result = "tt"
    for item in reversed(items):
        result = f"({item}, {result})"
    return result


def product(types):
    """The type of the nested pairs."""
    result = "Unit {0}"
    for item in reversed(types):
        result = f"{item} × {result}" if result == "Unit {0}" else f"{item} × ({result})"
    return result


def separated(formulas):
    """The formulas, each for itself, as one formula."""
    result = "ftrue"
    for formula in reversed(formulas):
        result = f"fsep {formula} {result}" if result == "ftrue" else f"fsep {formula} ({result})"
    return result


def projection(position):
    """The path to the component at that position of nested pairs."""
    return " .1" * position + " .0"


def dashed(name):
    """A name of the source as the logic spells it."""
    return name.replace("_", "-")


def spaced(*parts):
    """The parts that are not empty, parted by blanks."""
    return " ".join(part for part in parts if part)


def after_blank(items):
    """The items, a blank before each."""
    return "".join(f" {item}" for item in items)


def tokens(text):
    """The text as blanks, brackets and words."""
    return re.findall(r"\s+|[(){},;]|[^\s(){},;]+", text)


def bound_names(text):
    """The names that a λ binds in the text."""
    return set(re.findall(r"λ\s*\(?(\S+?)[.\s:]", text))


def replaced(text, names):
    """The text with the words that `names` maps replaced; a word that a λ binds in it stays."""
    bound = bound_names(text)
    return "".join(names.get(word, word) if word not in bound else word for word in tokens(text))
