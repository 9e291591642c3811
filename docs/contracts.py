"""What docs/check-promises reads of the tree: functions and their contracts, laws of one answer, and whether such a law
is about such a contract.

An expression is a name, or a tuple: of a function and its arguments, of a field (`.new`) and what has it, or of λ, a
name and a body. A name that is not bound where it stands has its file before it, so that two names are equal only if
they mean one thing.
"""
import os
import re
from collections import namedtuple
from functools import cache, wraps

FACE = "crates/brassgroat"
# What a contract may be beside an equation and a promise: a promise of the library, carried over to the face's places.
CARRIED, PART = (f"{FACE}/specs/Carried.antt:{name}" for name in ("Carried", "PartCarried"))
# What the face turns an answer into its places by, or an argument before it hands it on.
TURNS = ("crates/plain_answers/specs/Answers.antt:", "crates/table/specs/Answers.antt:")
# What makes a record of its arguments: two of it are equal exactly if what they hold is.
WRAPS = ("crates/curve/specs/Promises.antt:sitting_on", "crates/logged/specs/State.antt:logged_on")
# The equality that is meant, which the library hands on under these names.
EQUAL = [f"{home}:◌≡◌" for home in ("mathlib.Core.Path", "Rattle.std.specs.Prelude", "Rattle.std.proofs.Common")]
# The name that a contract gives the answer.
ANSWER = "result"
# A part of a name.
PART_OF = r"[\w'′″·-]+"
# In a carried promise: the library's answer, which it is about. In a contract as the checker reads it: the parameters
# after the call.
INNER, LATER = "•", "later"

Function = namedtuple("Function", "path within name signature parameters lent clauses public exported span")
# What the answer equals, or what is promised of it.
Contract = namedtuple("Contract", "equal promise")
# The names that a law binds, its two premises, and the equalities that it ends in.
Law = namedtuple("Law", "names first second ends")


class Weak(Exception):
    """What a contract or a law lacks."""


@cache
def text(path):
    with open(path, encoding="utf-8") as file:
        return file.read()


@cache
def text_if_there(path):
    return text(path) if os.path.exists(path) else None


def of_file(function):
    """Keeps what a function gives of a file for as long as the file's text is the same, or is not there."""
    kept = {}

    @wraps(function)
    def same(path, *words):
        content, key = text_if_there(path), (path, *words)
        if key not in kept or kept[key][0] != content:
            kept[key] = content, function(path, *words)
        return kept[key][1]

    return same


@of_file
def bare(path):
    """A file with blanks for its comments, which nest, and for the signs in its strings."""
    line, begin, end = ("//", "/*", "*/") if path.endswith(".rt") else ("--", "{-", "-}")
    strings = r'"(?:\\[\s\S]|[^"\\])*"' + (r"|b'(?:\\.|[^'\\])+'" if path.endswith(".rt") else "")
    whole, after, marks = text(path), 0, re.compile(f"{re.escape(begin)}|{re.escape(end)}")
    kept = list(whole)
    for found in re.finditer(rf"{line}[^\n]*|{re.escape(begin)}|{strings}", whole):
        if found.start() < after:
            continue
        after, depth = found.end(), found[0] == begin
        while depth and (mark := marks.search(whole, after)):
            depth, after = depth + (1 if mark[0] == begin else -1), mark.end()
        comment = found[0].startswith((line, begin))
        kept[found.start() : after] = re.sub(r"\S" if comment else r'[^\w\s"]', " ", whole[found.start() : after])
    return "".join(kept)


# ---- Rattle: the functions of a file.


def closing(source, at):
    """Where the bracket at a place is closed."""
    depth = 0
    for found in re.compile(r"[()]" if source[at] == "(" else r"[{}]").finditer(source, at):
        depth += 1 if found[0] == source[at] else -1
        if depth == 0:
            return found.start()
    return len(source)


# What stands between a function's parameters and its next clause or its body: a type, which may hold [u16; 1024].
BETWEEN = r"(?:[^{;[]|\[[^\]]*\])*?"


def type_of(head):
    """The type that an `impl` is for, by the text after that word; if it is one of Rust's own, as u16, the trait."""
    trait, _, own = re.sub(r"^<.*?>(?=\s*\w)", "", head).partition(" for ")
    return re.search(r"[A-Z]\w*", f"{own} {trait}")[0]


@of_file
def functions(path):
    """Each function of a file: the modules and the type that it stands in, its contract, and who can call it."""
    source, listed = bare(path), []
    files = path.split("/src/")[1][: -len(".rt")].split("/")
    heads = re.finditer(r"\b(?:mod\s+(\w+)\s*|impl\b((?:[^{;[]|\[[^\]]*\])*))\{", source)
    blocks = [(found.end(), closing(source, found.end() - 1), found[1] or type_of(found[2])) for found in heads]
    for found in re.finditer(r"\bfn\s+(\w+)", source):
        # Whatever stands after the item before it is the function's own: attributes, `pub`, `extern "C"`.
        begun = max(source.rfind(sign, 0, found.start()) for sign in "{};") + 1
        own = re.findall(r"\w+", source[begun : found.start()])
        end = closing(source, source.index("(", found.end())) + 1
        clauses, last = [], None
        while clause := re.compile(BETWEEN + r"\b(requires|ensures)\b(?:\s+\w+)?\s*\{").match(source, end):
            last, end = last or clause.start(1), closing(source, clause.end() - 1) + 1
            clauses.append((clause[1], text(path)[clause.end() : end - 1]))
        last = last or re.compile(BETWEEN + r"(?=[{;])").match(source, end).end()
        first = re.compile(r"\b(?:pub|extern|const|fn)\b").search(source, begun).start()
        signature = " ".join(source[first:last].split()).replace("( ", "(").replace(", )", ")")
        named = re.findall(r"(\w+): (&(?:'\w+ )?mut )?", signature[signature.index("(") :])
        within = [part for part in files if part not in ("lib", "main", "mod")]
        within += [name for opens, shuts, name in blocks if opens <= found.start() < shuts]
        parameters, lent = [name for name, _ in named], [name for name, mutable in named if mutable]
        exported = not {"no_mangle", "export_name"}.isdisjoint(own)
        opened = re.compile(r"\S").search(source, begun).start()
        span = opened, closing(source, source.find("{", end)) + 1
        form = signature, parameters, lent, clauses
        listed.append(Function(path, within, found[1], *form, "pub" in own, exported, span))
    return listed


# ---- antt: what names mean, and what expressions are.


@of_file
def declared(path):
    """Every name that a file declares, at any depth."""
    form = r"(?m)^\s*(?:abbrev |unfoldable )?(?:pub )?(?:(?:record|data) (\S+)|(\S+) :(?: |$))"
    return {a or b for a, b in re.findall(form, bare(path))}


@of_file
def definitions(path):
    """The text of each public definition of a file, at the margin or in modules, whose heads are part of it."""
    bodies, name, modules = {}, None, []
    for line in bare(path).splitlines() if os.path.exists(path) else []:
        indent = len(line) - len(line.lstrip())
        modules = [module for module in modules if not line.strip() or module.index(module.strip()) < indent]
        begun = re.match(r" *(?:abbrev |unfoldable )?pub (?!mod )(?:record |data )?(\S+)", line)
        if re.match(r" *module ", line):
            modules, name = [*modules, line], None
        elif begun and indent == 2 * len(modules):
            name = begun[1]
            bodies[name] = "\n".join(modules) + "\n" if modules else ""
        if name:
            bodies[name] += line + "\n"
    return bodies


@cache
def home(module):
    """A module's file if it is ours, its name if it is not."""
    file = re.sub(r"^Rattle\.(\w+)\.(specs|proofs)\.(\w+)$", r"crates/\1/\2/\3.antt", module)
    return file if os.path.exists(file) else module


@cache
def meanings(path):
    """What each name means that a file declares or takes from elsewhere: `home:name`; or a module's home."""
    ghost = "ghost " if path.endswith(".rt") else "(?:unfoldable )?(?:pub )?"
    known = {} if path.endswith(".rt") else {name: f"{path}:{name}" for name in declared(path)}
    used = rf"(?m)^\s*{ghost}use ([^\s{{;]+?)(?:\.\{{([^}}]*)\}}| as ([^\s;]+))?;?\s*$"
    for module, listed, short in re.findall(used, bare(path)):
        for item in listed.split(",") if listed else []:
            name, _, other = item.strip().partition(" as ")
            known[other or name.rpartition(".")[2]] = f"{home(module)}:{name}"
        if not listed:
            known[short or module.rpartition(".")[2]] = home(module)
    return known


def meaning(name, path, bound):
    """A bound name is itself, and any other what it means, whatever it is called there. What follows such a name after
    full stops is its fields, the innermost first."""
    known, (first, *fields) = meanings(path), name.split(".")
    heads = [".".join([first, *fields[:at]]) for at in range(len(fields))]
    modules = [at for at, module in enumerate(heads) if ":" not in known.get(module, ":")]
    if first in bound or not modules:
        return fields_of(first if first in bound else known.get(first, first), fields)
    at = modules[-1]
    return fields_of(f"{known[heads[at]]}:{fields[at]}", fields[at + 1 :])


def fields_of(tree, fields):
    for field in fields:
        tree = f".{field}", tree
    return tree


class Braced(list):
    """What stands in braces; a plain list is what stands in parentheses."""


def grouped(source):
    """The words of a text, those in brackets as a list of their own."""
    levels = [[]]
    for word in re.findall(r"[(){},;λ]|[^\s(){},;λ]+", source):
        if word in "({":
            levels.append([] if word == "(" else Braced())
        elif word in ")}":
            shut = levels.pop()
            if not levels or isinstance(shut, Braced) != (word == "}"):
                raise Weak("its brackets do not match")
            levels[-1].append(shut)
        else:
            levels[-1].append(word)
    return levels[0]


def parted(items, sign):
    """The parts between a sign that stands outside all brackets."""
    parts = [[]]
    for item in items:
        if item == sign:
            parts.append([])
        else:
            parts[-1].append(item)
    return parts


def applied(function, arguments):
    if isinstance(function, tuple) and function[0] != "λ" and function[0][:1] != ".":
        return (*function, *arguments)
    return (function, *arguments) if arguments else function


def expression(items, path, bound):
    """An expression of names, applications, fields and λ: with any other sign it is refused."""
    if items[:1] == ["λ"] and len(items) > 2 and isinstance(items[1], str):
        name = items[1].rstrip(".")
        return "λ", name, expression(items[2:], path, {*bound, name})
    known = meanings(path).items()
    operators = {part for key, what in known if "◌" in key and ":" in what for part in key.split("◌")}
    atoms = []
    for item in items:
        if type(item) is list:
            atoms.append(expression(item, path, bound))
        elif isinstance(item, Braced) or item == "_" or item in operators:
            raise Weak(f"{'what is in braces' if isinstance(item, Braced) else f'`{item}`'} must not stand in it")
        elif atoms and re.fullmatch(rf"(?:\.{PART_OF})+", item):
            atoms[-1] = fields_of(atoms[-1], item[1:].split("."))
        elif re.fullmatch(rf"{PART_OF}(?:\.{PART_OF})*", item):
            atoms.append(meaning(item, path, bound))
        else:
            raise Weak(f"`{item}` must not stand in it")
    if not atoms:
        raise Weak("a part of it is empty")
    return applied(atoms[0], atoms[1:])


def replaced(tree, names):
    return tuple(replaced(part, names) for part in tree) if isinstance(tree, tuple) else names.get(tree, tree)


def head(tree):
    return tree[0] if isinstance(tree, tuple) else tree


def leaves(tree):
    return [leaf for part in tree for leaf in leaves(part)] if isinstance(tree, tuple) else [tree]


def holds(tree, part):
    return tree == part or isinstance(tree, tuple) and any(holds(inner, part) for inner in tree)


@of_file
def stated(path, pattern):
    """What a file says from a pattern on, to the end of its indented lines, and what the modules around it bind; or
    nothing, unless that is there once, at the margin or in modules alone."""
    outer, found, within = [], [], False
    for line in bare(path).splitlines():
        indent = len(line) - len(line.lstrip())
        if within and line.strip() and indent > outer[-1][0]:
            found[-1] = (found[-1][0] + " " + line, found[-1][1])
        elif line.strip():
            module = re.match(r" *module \S+ (.*)where *$", line)
            outer = [*((level, words) for level, words in outer if level < indent), (indent, module and module[1])]
            within = re.match(rf" *{pattern}", line)
            found += [(line[within.start(1) :], [words for _, words in outer[:-1]])] if within else []
        else:
            within = False
    return found[0] if len(found) == 1 and None not in found[0][1] else None


def bindings(items):
    """The names that a text binds, those of them that are in parentheses, and how it goes on."""
    names, explicit = [], []
    while items and (items[0] == "→" or isinstance(items[0], list) and ":" in items[0]):
        some = parted(items[0], ":")[0] if items[0] != "→" else []
        names, explicit, items = names + some, explicit + some * (type(items[0]) is list), items[1:]
    return names, explicit, items


def abbreviated(tree):
    """Where an expression's function is an abbreviation of the face's: its file, its names and its text."""
    path, _, name = str(head(tree)).rpartition(":")
    found = stated(path, rf"{re.escape(name)}((?: {PART_OF})* =)") if path.startswith(f"{FACE}/specs/") else None
    if not found or not isinstance(tree, tuple):
        return None
    own, _, body = found[0].partition("=")
    names = [*bindings(grouped(" ".join(found[1])))[1], *own.split()]
    return (path, names, grouped(body)) if len(tree) > len(names) else None


def unfolded(tree):
    """An expression without abbreviations of the face's at its head."""
    if not (found := abbreviated(tree)):
        return tree
    path, names, items = found
    body = replaced(expression(items, path, set(names)), dict(zip(names, tree[1:])))
    return unfolded(applied(body, tree[1 + len(names) :]))


def normal(tree):
    """A promise without abbreviations, and a carried one with `•` for the library's answer."""
    tree = unfolded(tree)
    if not isinstance(tree, tuple) or tree[0] != CARRIED or len(tree) != 4:
        return tree
    promise = unfolded(tree[2])
    inner = replaced(promise[2], {promise[1]: INNER}) if promise[0] == "λ" else applied(promise, [INNER])
    return CARRIED, tree[1], unfolded(inner), tree[3]


# ---- Contracts, laws, and whether they belong together.


def promises(tree, answer):
    """Whether an expression is a promise, carried or not, of that answer."""
    if head(tree) == CARRIED:
        carried = len(tree) == 4 and tree[3] == answer != INNER and isinstance(tree[1], str)
        return carried and tree[1].startswith(TURNS) and promises(tree[2], INNER)
    if head(tree) == PART:
        return tree[2:] == (answer,)
    return isinstance(head(tree), str) and bool(re.fullmatch(r"crates/.*Promise", head(tree))) and answer in tree[1:]


def contract_of(function):
    """A function's contract, which has one strict form: nothing stands around it, and nothing beside it."""
    if [kind for kind, _ in function.clauses] != ["ensures"]:
        raise Weak("it must have one `ensures`, and no `requires`: test what it asks for, or move it into `inside`")
    sides = parted(grouped(function.clauses[0][1]), "≡")
    sides = [expression(side, function.path, {ANSWER, *function.parameters}) for side in sides]
    if len(sides) == 1:
        contract = Contract(None, normal(sides[0]))
        strict = leaves(contract.promise).count(ANSWER) == 1 and promises(contract.promise, ANSWER)
    else:
        contract = Contract(sides[1], None)
        strict = len(sides) == 2 and sides[0] == ANSWER and ANSWER not in leaves(sides[1])
        strict = strict and meanings(function.path).get("◌≡◌") in EQUAL
    if not strict:
        raise Weak("it must be `result ≡ ..`, `..Promise .. result ..`, `Carried .. result` or `PartCarried ..` alone")
    for leaf in leaves(contract.promise or contract.equal):
        path, _, name = leaf.rpartition(":")
        plain = leaf in (INNER, ANSWER, *function.parameters) or leaf.startswith(".")
        if not plain and not (path.startswith("crates/") and name in declared(path)):
            raise Weak(f"it says `{name}`, which is no definition of ours")
    for name in function.parameters:
        if name not in leaves(contract):
            raise Weak(f"it says nothing of `{name}`")
    for name in function.lent:
        if not holds(contract, (".new", name)):
            raise Weak(f"it does not say what `{name}`, which is lent for writing, holds after")
    return contract


@cache
def law_of(path, name):
    """A law of one answer as it is stated: for all names, from two promises to one equality or several."""
    found = stated(path, rf"(?:pub )?{re.escape(name)} :( |$)")
    if not found:
        raise Weak(f"{path} does not state it at the margin or in a module")
    names, _, items = bindings(grouped(" ".join([*found[1], found[0]])))
    stands = {}
    if "→" not in items and (short := abbreviated(tree := expression(items, path, set(names)))):
        path, given, items = short
        stands = dict(zip(given, tree[1:]))
        more, _, items = bindings(items)
        names = names + more

    def said(items):
        return normal(replaced(expression(items, path, {*names, *stands}), stands))

    parts = parted(items, "→")
    if len(parts) != 3 or meanings(path).get("◌≡◌") not in EQUAL or "◌×◌" in meanings(path):
        raise Weak("it must go from two promises, and nothing more, to equalities")
    ends = []
    for part in parted(parts[2], "×"):
        while len(part) == 1 and type(part[0]) is list:
            part = part[0]
        ends.append([said(side) for side in parted(part, "≡")])
    if any(len(sides) != 2 for sides in ends):
        raise Weak("it must end in equalities alone")
    return Law(names, said(parts[0]), said(parts[1]), ends)


def matched(pattern, tree, names, found):
    """Whether a premise is about a contract, and what of the contract each name of the law then stands for."""
    if isinstance(pattern, str) and pattern in names:
        return found.setdefault(pattern, tree) == tree
    if isinstance(pattern, tuple) and isinstance(tree, tuple) and len(pattern) == len(tree):
        return all(matched(part, other, names, found) for part, other in zip(pattern, tree))
    return pattern == tree


def check_law(law, function, contract):
    """That a law says of two answers which keep a function's very contract that they and the later buffers are one."""
    one, two = {}, {}
    promise, later = contract.promise, {name: (".new", name) for name in function.lent}
    crate, place = function.path.split("/")[1], ".".join([*function.within, function.name])
    if head(law.first) == f"Rattle.{crate}.proofs.{place}.Reads:Post":
        # The contract as the checker reads it: of the lifetimes, the parameters, the answer, and the parameters after.
        promise, later = (head(law.first), "κs", "a", ANSWER, LATER), dict.fromkeys(function.lent, LATER)
        for name in later:
            for _ in range(function.parameters.index(name)):
                later[name] = (".1", later[name])
            later[name] = (".now", (".0", later[name]))
    for premise, found in ((law.first, one), (law.second, two)):
        if not matched(premise, promise, law.names, found):
            raise Weak("it is about another promise than the contract's")
    for name in law.names:
        if name not in one and name not in two:
            raise Weak(f"it asks for `{name}`, of which its promises do not speak")
        if name in one and name in two and (one[name] != two[name] or {ANSWER, ".new", LATER} & set(leaves(one[name]))):
            raise Weak(f"both its promises are of one `{name}`")
    ends = [(replaced(left, one), replaced(right, two)) for left, right in law.ends]
    for left, right in list(ends):
        if head(left) == head(right) in WRAPS and len(left) == len(right):
            ends += zip(left[1:], right[1:])
    wanted = [(".now", ANSWER), (".ref_ptr", ANSWER)] if "-> &" in function.signature else [ANSWER]
    for part in [*wanted, *later.values()]:
        if (part, part) not in ends:
            what = "the answers" if part in wanted else f"`{' and '.join(later)}`"
            raise Weak(f"it does not end in the equality of {what}")


def check_carried(function, contract, routine, promised):
    """That an export's contract is its routine's, argument by argument: as it is, or carried."""
    said = contract.equal or contract.promise
    carried = head(said) == CARRIED
    names = dict(zip(routine.parameters, function.parameters))
    names[ANSWER] = INNER if carried else ANSWER

    def same(tree, other):
        if isinstance(other, tuple) and len(other) == 2 and str(other[0]).startswith(TURNS) and other[1] == tree:
            return tree in function.parameters
        if isinstance(tree, tuple) and isinstance(other, tuple) and len(tree) == len(other):
            return all(map(same, tree, other))
        return tree == other

    wanted = replaced(promised.equal or promised.promise, names)
    if len(routine.parameters) != len(function.parameters) or not same(wanted, said[2] if carried else said):
        raise Weak("it is another one, or of other arguments")
