"""A checker of logs that was written from docs/FORMATS.md alone: it shares nothing with the program.

    python3 tests/own_checker.py MODEL LOG

prints `verified`, or `rejected` and why, with status 1. It trusts that the model is one that the program accepts.
"""
import re
import sys

TOKEN = re.compile(r"\s+|%[^\n]*\n?|(-?0x[0-9a-fA-F]+|-?0o[0-7]+|-?\d+|[A-Za-z_]\w*|\.\.|::|\"[^\"]*\"|.)")

NUMBER = r"(?:0|[1-9][0-9]*)"
PAIR = f"v{NUMBER}=(?:0|-?[1-9][0-9]*)"
STEP = re.compile(rf"({NUMBER}) (v{NUMBER}|-) \[((?:{PAIR}(?:,{PAIR})*)?)\] <-((?: [cn]{NUMBER})*)")


class Rejected(Exception):
    """The log refutes nothing."""


class Model:
    """Variables with their domains, and constraints as a name with arguments; a variable is `("v", K)`, K from 0."""

    def __init__(self, text):
        self.tokens = [token for token in TOKEN.findall(text) if token]
        self.at, self.domains, self.names, self.of_declarations, self.constraints = 0, [], {}, [], []
        while self.at < len(self.tokens):
            self.item()
        self.rules = self.of_declarations + self.constraints

    def next(self, wanted=None):
        token = self.tokens[self.at]
        assert wanted in (None, token), (wanted, token)
        self.at += 1
        return token

    def peek(self):
        return self.tokens[self.at]

    def skip_to(self, *ends):
        """Passes annotations and all else up to one of these tokens outside of brackets."""
        depth = 0
        while depth or self.peek() not in ends:
            depth += {"(": 1, "[": 1, ")": -1, "]": -1}.get(self.next(), 0)

    def item(self):
        kind = self.peek()
        if kind in ("predicate", "solve"):
            self.skip_to(";")
        elif kind == "constraint":
            self.next()
            name = self.next()
            self.next("(")
            arguments = [self.expression()]
            while self.peek() == ",":
                self.next()
                arguments.append(self.expression())
            self.next(")")
            self.skip_to(";")
            self.constraints.append((name, arguments))
        else:
            self.declaration()
        self.next(";")

    def declaration(self):
        is_array = self.peek() == "array"
        if is_array:
            self.skip_to("of")
            self.next()
        is_variable = self.peek() == "var"
        if is_variable:
            self.next()
        values = self.type()
        self.next(":")
        name = self.next()
        self.skip_to("=", ";")
        right = None
        if self.peek() == "=":
            self.next()
            right = self.expression()
        if is_variable and not is_array:
            self.domains.append(values)
            self.names[name] = ("v", len(self.domains) - 1)
            if right is not None:
                self.of_declarations.append(("int_eq", [self.names[name], right]))
            return
        self.names[name] = right
        if is_variable and self.is_listed:
            self.of_declarations.extend(("set_in", [element, values]) for element in right)

    def type(self):
        """The values of a type, in rising order; whether it lists them is kept."""
        self.is_listed = self.peek() not in ("bool", "int", "set")
        if self.is_listed:
            return self.expression()
        if self.next() == "set":
            self.next("of")
            self.next()
        return [0, 1]

    def expression(self):
        token = self.next()
        if token in "[{":
            items = []
            while self.peek() not in "]}":
                items.append(self.expression())
                if self.peek() == ",":
                    self.next()
            self.next()
            return sorted(set(items)) if token == "{" else items
        if token in ("true", "false"):
            return int(token == "true")
        if token[0].isalpha() or token[0] == "_":
            return self.names[token]
        number = int(token, 0) if "x" in token or "o" in token else int(token)
        if self.peek() != "..":
            return number
        self.next()
        return list(range(number, self.expression() + 1))


def divided(a, b):
    return abs(a) // abs(b) * (1 if (a < 0) == (b < 0) else -1)


def total(coefficients, terms):
    return sum(c * t for c, t in zip(coefficients, terms))


def element(index, items, value):
    return 1 <= index <= len(items) and items[index - 1] == value


def is_row(row, entries):
    return any(entries[at:at + len(row)] == row for at in range(0, len(entries), len(row)))


TRUTH = {
    "int_eq": lambda a, b: a == b,
    "int_ne": lambda a, b: a != b,
    "int_le": lambda a, b: a <= b,
    "int_lt": lambda a, b: a < b,
    "int_lin_eq": lambda c, t, n: total(c, t) == n,
    "int_lin_ne": lambda c, t, n: total(c, t) != n,
    "int_lin_le": lambda c, t, n: total(c, t) <= n,
    "int_plus": lambda a, b, c: a + b == c,
    "int_times": lambda a, b, c: a * b == c,
    "int_min": lambda a, b, c: min(a, b) == c,
    "int_max": lambda a, b, c: max(a, b) == c,
    "int_div": lambda a, b, c: b != 0 and divided(a, b) == c,
    "int_mod": lambda a, b, c: b != 0 and a - b * divided(a, b) == c,
    "int_abs": lambda a, b: abs(a) == b,
    "bool_not": lambda a, b: a != b,
    "bool_and": lambda a, b, c: (a and b) == c,
    "bool_or": lambda a, b, c: (a or b) == c,
    "bool_xor": lambda a, b, c=1: (a != b) == c,
    "bool2int": lambda a, b: a == b,
    "bool_clause": lambda p, n: any(p) or not all(n),
    "array_bool_and": lambda a, b: all(a) == b,
    "array_bool_or": lambda a, b: any(a) == b,
    "array_bool_xor": lambda a: sum(a) % 2 == 1,
    "array_int_element": element,
    "set_in": lambda a, s: a in s,
    "fzn_all_different_int": lambda a: len(set(a)) == len(a),
    "fzn_table_int": is_row,
    "fzn_table_bool": is_row,
}
for of_booleans, of_integers in [("bool_eq", "int_eq"), ("bool_le", "int_le"), ("bool_lt", "int_lt")]:
    TRUTH[of_booleans] = TRUTH[of_integers]
TRUTH["bool_lin_eq"], TRUTH["bool_lin_le"] = TRUTH["int_lin_eq"], TRUTH["int_lin_le"]
for name in ["array_var_int_element", "array_bool_element", "array_var_bool_element"]:
    TRUTH[name] = element


def is_broken(rule, known):
    """Whether the known values are all that the constraint speaks of, and it is false of them."""

    def value(argument):
        if isinstance(argument, list):
            return [value(one) for one in argument]
        return known[argument[1]] if isinstance(argument, tuple) else argument

    name, arguments = rule
    try:
        values = [value(argument) for argument in arguments]
    except KeyError:
        return False
    if name.endswith("_reif"):
        return bool(TRUTH[name[: -len("_reif")]](*values[:-1])) != bool(values[-1])
    return not TRUTH[name](*values)


def check(model, lines):
    version = lines[0]
    if version not in ("ngd 1", "ngd 2") or lines[-2:] != ["end", ""]:
        raise Rejected("this is no log")
    nogoods, count, last = {}, 0, None
    for line in lines[1:-2]:
        if version == "ngd 2" and line.startswith("d "):
            for number in line.split(" ")[1:]:
                if nogoods.pop(int(number), None) is None:
                    raise Rejected(f"deletion after step {count}")
            continue
        step = STEP.fullmatch(line)
        count += 1
        if not step or int(step[1]) != count:
            raise Rejected(f"step {count} is not read")
        last = nogood(model, step, nogoods)
        if last is None:
            raise Rejected(f"step {count}")
        nogoods[count] = last
    if last != {}:
        raise Rejected("not empty")


def nogood(model, step, nogoods):
    """The nogood of a step, from variables to values, or None where the step is wrong."""
    pairs = [pair.partition("=") for pair in step[3].split(",") if pair]
    known = {int(name[1:]) - 1: int(value) for name, _, value in pairs}
    if list(known) != sorted(known) or len(known) != len(pairs):
        return None
    if any(at >= len(model.domains) or value not in model.domains[at] for at, value in known.items()):
        return None
    reasons = step[4].split()
    if step[2] == "-":
        return known if not known and len(reasons) == 1 and reasons[0][0] == "c" and excludes(model, nogoods, reasons[0], {}) else None
    variable = int(step[2][1:]) - 1
    if variable in known or not 0 <= variable < len(model.domains):
        return None
    values = model.domains[variable]
    if len(reasons) != len(values):
        return None
    right = all(excludes(model, nogoods, reason, {**known, variable: value}) for reason, value in zip(reasons, values))
    return known if right else None


def excludes(model, nogoods, reason, known):
    """Whether a reason shows that the known values cannot stand together."""
    number = int(reason[1:])
    if reason[0] == "c":
        return 1 <= number <= len(model.rules) and is_broken(model.rules[number - 1], known)
    return number in nogoods and nogoods[number].items() <= known.items()


def main():
    with open(sys.argv[1], encoding="utf-8") as model, open(sys.argv[2], encoding="utf-8", newline="\n") as log:
        try:
            check(Model(model.read()), log.read().split("\n"))
        except Rejected as why:
            print("rejected", why)
            return 1
    print("verified")
    return 0


if __name__ == "__main__":
    sys.exit(main())
