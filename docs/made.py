"""The lines of docs/PROMISES.md that are made from the tree: signatures, definitions, laws of one answer, laws, and
wrong programs. docs/check-promises puts them into the page, or holds the page to them; its text has the rules.
"""
import os
import re
import textwrap
from functools import cache
from glob import glob

from contracts import Weak, bare, check_law, closing, declared, definitions, functions, head, law_of, leaves
from contracts import meanings, of_file, text

# What every promise is written in: the page tells of these files once, and no list repeats them.
SHARED = [f"crates/table/specs/{name}.antt" for name in ("Choice", "Fill", "Refusals", "Answers", "Sizes")]
# A definition with so many below it, itself counted, is listed whole once, and then referred to.
MANY = 4
# The end of a comment that says at which calls and crates the law below it is told.
MARKER = re.compile(r"\s\[([a-z]\w*(?:::\w+)*(?:, [a-z]\w*(?:::\w+)*)*)\]$")
DECLARES = re.compile(r"\s*(?:abbrev |unfoldable )?(?:pub )?(?:(?:record|data) (\S+)|(\S+) :(?: |$))")
WIDTH = 120


def wrapped(line, indent):
    return textwrap.wrap(line, WIDTH, subsequent_indent=indent, break_long_words=False, break_on_hyphens=False)


def item(key, value):
    """An item of a block, as lines."""
    return wrapped(f"- **{key}**: {value}", "  ")


def told_path(crate, path):
    """A file as the page has it: without its crate where that is the section's."""
    return path.removeprefix(f"crates/{crate}/")


def by_file(crate, pairs):
    """Names with their files, each file once."""
    files = {}
    for path, name in pairs:
        files.setdefault(path, []).append(f"`{name}`")
    return "; ".join(f"{told_path(crate, path)} {', '.join(listed)}" for path, listed in files.items())


# ---- Definitions.


def whence(path, word):
    """The file that a word of a file comes from, and its name there."""
    return tuple(meanings(path).get(word, f"{path}:{word}").split(":", 1))


@cache
def made_of(path, name):
    """The definitions of ours that a definition names."""
    words = re.findall(r"[^\s(){},;]+", definitions(path)[name])
    pairs = [whence(path, whole) for word in words for whole in dict.fromkeys((word, word.partition(".")[0]))]
    return [(path, word) for path, word in pairs if word in definitions(path)]


def all_of(pairs):
    """Definitions and all that they are made of, in the order in which one comes to them."""
    seen, todo = {}, list(pairs)
    for pair in todo:
        if pair not in seen:
            seen[pair] = True
            todo += made_of(*pair)
    return list(seen)


@cache
def rests_on(path, name):
    """A definition, and all that it is made of."""
    return all_of([(path, name)]) if name in definitions(path) else []


def cited(contract):
    """The definitions that a contract names: first the promise, or what the answer equals."""
    pairs = [tuple(leaf.split(":", 1)) for leaf in leaves(contract[1:]) if str(leaf).startswith("crates/")]
    first = tuple(head(contract.promise or contract.equal).split(":", 1))
    return [pair for pair in dict.fromkeys([first, *pairs]) if pair[1] in definitions(pair[0])]


def unshared(pairs):
    return [pair for pair in pairs if pair[0] not in SHARED]


def definition(routine, contract, whole):
    """What a contract cites and all below that. `whole` has the routine at which a definition is listed with all below
    it: there it is looked up, and not listed anew, if that is much."""
    crate, first, listed, referred = routine.split("::")[0], cited(contract)[0], {}, {}
    todo = cited(contract)
    for pair in todo:
        if pair in whole and len(unshared(rests_on(*pair))) >= MANY:
            referred[pair] = whole[pair]
        elif pair not in listed:
            listed[pair] = True
            todo += made_of(*pair)
    below = {pair for root in referred for pair in rests_on(*root)[1:]}
    listed = [pair for pair in listed if pair not in below and (pair == first or pair[0] not in SHARED)]
    whole.update((pair, routine) for pair in listed if pair not in whole)
    groups = {}
    for pair, other in referred.items():
        if pair not in below:
            groups.setdefault(other, []).append(pair)
    parts = [f"{by_file(crate, pairs)} with all below, as at `{other}`" for other, pairs in groups.items()]
    parts = [*parts, by_file(crate, listed)] if first in referred else [by_file(crate, listed), *parts]
    return "; ".join(filter(None, parts))


def other_definitions(crate, contracts):
    """The definitions of a crate that none of its calls' contracts rests on."""
    below = set(all_of(pair for contract in contracts for pair in cited(contract)))
    pairs = [(path, name) for path in sorted(glob(f"crates/{crate}/specs/*.antt")) for name in definitions(path)]
    return [pair for pair in unshared(pairs) if pair not in below]


# ---- Laws.


@cache
def law_or_none(path, name):
    try:
        return law_of(path, name)
    except Weak:
        return None


def laws_of_one_answer(crates):
    """Every law of the crates that may be one of one answer, by its name."""
    for crate in crates:
        for path in sorted(glob(f"crates/{crate}/proofs/*.antt")):
            for name in sorted(declared(path)):
                if name.endswith("_one") and (law := law_or_none(path, name)):
                    yield path, name, law


def one_answer(function, contract, laws):
    """The laws that two answers which keep this very contract are one."""
    found = []
    for path, name, law in laws:
        try:
            check_law(law, function, contract)
            found.append((path, name))
        except Weak:
            continue
    return found


@of_file
def marked(path):
    """What a file's comments say of the page: for each that ends in a marker its line, the name that is declared below
    it, or none, its first sentence, and the places that it names."""
    found, words = [], []
    for at, (line, code) in enumerate(zip(text(path).splitlines(), bare(path).splitlines()), 1):
        if line.lstrip().startswith("--") and not code.strip():
            words.append(line.strip().lstrip("-").strip())
            continue
        said = " ".join(words)
        if marker := MARKER.search(said):
            name = DECLARES.match(code)
            sentence = re.match(r"(.+?\.)(?=\s|$)", said[: marker.start()])
            found.append((at, name and (name[1] or name[2]), sentence and sentence[1], marker[1].split(", ")))
        words = []
    return found


def laws_told(crates):
    """The laws that are told at each place, with a sentence each, those of the place's own crate first; and what is
    wrong with markers."""
    told, faults = {}, []
    for crate in crates:
        for folder in ("specs", "proofs"):
            for path in sorted(glob(f"crates/{crate}/{folder}/**/*.antt", recursive=True)):
                for at, name, sentence, places in marked(path):
                    if not name:
                        faults.append((f"{path}:{at}", "a comment with a marker stands above no law: move it there"))
                    elif not sentence:
                        faults.append((f"{path}:{at}", f"`{name}` is to be told: end its comment with a full stop"))
                    else:
                        for place in places:
                            told.setdefault(place, []).append((path, name, sentence))
    for place, laws in told.items():
        laws.sort(key=lambda law: not law[0].startswith(f"crates/{place.split('::')[0]}/"))
    return told, faults


def law_items(place, laws, first):
    """The laws that are told at a place. `first` has where a law was told already: there its sentence stands."""
    crate, lines, again = place.split("::")[0], ["- **Laws**:"], {}
    for path, name, sentence in laws:
        if first.setdefault((path, name), place) != place:
            again.setdefault(first[path, name], []).append((path, name))
        else:
            lines += wrapped(f"  - {told_path(crate, path)} `{name}`: {sentence}", "    ")
    for other, pairs in again.items():
        lines += wrapped(f"  - {by_file(crate, pairs)}, as at `{other}`", "    ")
    return lines


# ---- Wrong programs.


def changes(path):
    """The texts that an edit changes: a file, and where the text stands in it; none if it stands nowhere."""
    crate, file, later = path.split("/")[1], None, {}
    for key, value in re.findall(r"(?m)^(file|old|new): ?(.*)", text(path)):
        if key == "file":
            file = f"crates/{crate}/{value.strip()}"
            later.setdefault(file, text(file) if os.path.exists(file) else "")
        elif key == "new":
            later[file] = later[file].replace(old, value, 1)
        else:
            old, at = value, text(file).find(value) if value in later[file] else None
            if at != -1:
                yield file, at is not None and (at, at + len(value))


@of_file
def parts_of(path):
    """The functions, constants and types of a source file, and then what it uses: name, begin and end of each."""
    source, parts = bare(path), [(function.name, *function.span) for function in functions(path)]
    others = r"\b(?:pub\s+)?(?:const|static|struct|enum)\s+(\w+)(?:[^;{[]|\[[^\]]*\])*?([;{=])"
    for found in re.finditer(others, source):
        shut = source.find(";", found.end() - 1) if found[2] != "{" else closing(source, found.end() - 1)
        parts.append((found[1], found.start(), shut + 1))
    uses = re.finditer(r"(?<!ghost )\buse\s+([^;]*);", source)
    names = [(name, found.start(1)) for found in uses for name in re.finditer(r"\w+", found[1])]
    return parts, [(name[0], at + name.start(), at + name.end()) for name, at in names]


def touched(parts, span):
    return {name for name, begin, end in parts if span[0] < end and begin < span[1]}


@cache
def names_used(crate):
    """What each function, constant and type of a crate calls or names, through whatever others of the crate. A call of
    a method counts where the crate has such a method: many of std's have a name that a function here has too."""
    paths = sorted(glob(f"crates/{crate}/src/**/*.rt", recursive=True))
    methods = {one.name for path in paths for one in functions(path) if re.search(r"\([^(,:]*\bself\b", one.signature)}
    uses = {}
    for path in paths:
        for name, begin, end in parts_of(path)[0]:
            words = re.findall(r"(\.?)\b(?:([a-z]\w*)\(|([A-Z]\w*))", bare(path)[begin:end])
            called = {a or b for dot, a, b in words if not (dot and a) or a in methods}
            uses.setdefault(name, {name}).update(called)
    for _ in uses:
        uses = {name: used.union(*(uses.get(other, ()) for other in used)) for name, used in uses.items()}
    return uses


def defined_at(path, at):
    """The definition that a place of a file belongs to."""
    names = re.findall(r"(?m)^ *(?:abbrev |unfoldable )?pub (?:record |data )?(\S+)", bare(path)[: at + 1])
    return [name for name in names if name in definitions(path)][-1:]


def edits(crate, routines):
    """At which routines of a crate each of its edits is told, none for the whole crate; and what is wrong with them."""
    told, faults = {}, []
    below = {name: set(all_of(cited(contract))) if contract else set() for name, (_, contract) in routines.items()}
    for path in sorted(glob(f"crates/{crate}/must-fail/*.edit")):
        parts, used, defined = set(), set(), set()
        for file, span in changes(path):
            if not span:
                faults.append((path, f"what it changes is not in {file}: correct its `old:`, or its `file:`"))
            elif "/src/" in file:
                own, others = parts_of(file)
                parts, used = parts | touched(own, span), used | touched(others, span)
            else:
                defined |= {(file, name) for name in defined_at(file, span[1] - 1)}
        hit = set()
        for names in (parts, used if not parts and not defined else set()):
            hit |= {name for name, (function, _) in routines.items() if names & names_used(crate)[function.name]}
        hit |= {name for name in routines if defined & below[name]}
        told[os.path.basename(path)[: -len(".edit")]] = hit
    return told, faults
