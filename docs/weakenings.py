"""Ways to let contracts, laws, doors and pages say less than they seem to: docs/check-promises --self-test tries each
on a copy of the tree, and demands that the check reports it.
"""
import os
import re
import shutil
import tempfile
from glob import glob

import contracts
import made

FACE, LOOKUP, LAWS = contracts.FACE, "crates/lookup/src/lib.rt", "crates/lookup/proofs/Promises.antt"
LOOKUPS, INVERSES, TABLE = f"{FACE}/src/lookups.rt", f"{FACE}/src/inverses.rt", "crates/table/src/lib.rt"
LOGGED, POWERS = "crates/logged/src/lib.rt", "crates/power_curve/src/lib.rt"
PAGE, TRACE, TOLD = "docs/PROMISES.md", "docs/TRACE.md", "crates/lookup/proofs/LookupLaws.antt"
# How the check begins what it says.
OF_LOOKUP, OF_BAKE = "lut_interp_linear16: its contract: ", "bg_bake: its contract: "
OF_FACE = "its law of one answer, `bg_passthrough_one`: it"
KEPT = "#[unsafe(no_mangle)]"
EXPORTED = rf'{re.escape(KEPT)}\s+(pub extern "C" fn bg_bake\b)'
# What is left of a law's statement.
REST = r"(?:(?!\n\S).)*"
# A law of one answer over any contract, and the buffers that it can be of.
CONTRACT = """use Rattle.std.specs.Prelude.{◌≡◌}
use Rattle.std.specs.Borrow.{MutBor}

module _ {K A R E : Type 0} (Post : K → A → R → E → Type 0) where
  abbrev pub One : {S : Type 0} → (E → S) → Type 0
  One buffer = (κs : K) (a : A) (r s : R) (e f : E) → Post κs a r e → Post κs a s f → ENDS

abbrev pub first : {S E : Type 0} → MutBor S × E → S
first e = e.0.now

abbrev pub second : {P S E : Type 0} → P × (MutBor S × E) → S
second e = e.1.0.now
"""
LEAK = "pub fn leak(x: u16) -> u16 {\n    x\n}\n"
MORE = '#[unsafe(no_mangle)]\npub extern "C" fn bg_more(x: u16) -> u16\n    ensures { result ≡ x }\n{\n    x\n}\n'


def contract(name):
    """A function's contract: what stands before it, the contract, what stands after."""
    return rf"(fn {name}\b.*?\bensures \{{ )([^{{}}]*)( \}})"


def put(path, name, form):
    """The contract of a function in another form, C being what it was."""
    return path, contract(name), r"\1" + form.replace("C", r"\2") + r"\3"


def bake(form):
    return put(LOOKUPS, "bg_bake", form)


def lookup(form):
    return put(LOOKUP, "lut_interp_linear16", form)


def law(old, new):
    """The law `lookup_one` stated in another way."""
    return LAWS, f"pub lookup_one :{old}", f"pub lookup_one :{new}"


def told(name, end):
    """The comment of a law of the lookup with another end, for its full stop and its marker."""
    return TOLD, rf"\. \[[^\]]*\](\n(?:abbrev )?pub {name} )", rf"{end}\1"


def more(path, added):
    return path, r"\Z", added


def over(export, buffer="first", ends="(r ≡ s) × (buffer e ≡ buffer f)"):
    """The law of `bg_passthrough_table_impl` stated over an export's contract as the checker reads it."""
    used = "use Rattle.brassgroat.specs.Contract.{One, first, second}\n"
    used += f"use Rattle.brassgroat.proofs.floats.{export}.Reads as it\n"
    return [
        (f"{FACE}/proofs/One.antt", rf"\A(.*?\npub bg_passthrough_one :){REST}", rf"{used}\1 One it.Post {buffer}"),
        (f"{FACE}/specs/Contract.antt", None, CONTRACT.replace("ENDS", ends)),
    ]


# What each does; words of the fault that must be found; and its changes: a file, a pattern in it and what takes its
# place, or a new file and its text.
WEAKENINGS = [
    # Contracts that say less than they seem to.
    ("an export's contract follows from itself", OF_BAKE, bake("C → C")),
    ("a routine's contract follows from itself", OF_LOOKUP, lookup("C → C")),
    ("something stands beside a contract", OF_LOOKUP, lookup("(C) × Unit")),
    ("a contract is one of two", OF_BAKE, bake("(C) ⊎ (result ≡ result)")),
    ("a contract holds of every answer", "within: its contract: ", put(TABLE, "within", "result ≡ result")),
    ("a contract speaks of no answer", OF_LOOKUP, (LOOKUP, r"(LookupPromise table\.now p) result", r"\1 p")),
    ("there are two contracts", OF_LOOKUP, lookup("C }\n    ensures { C")),
    ("a door asks for something", OF_LOOKUP, lookup("C }\n    requires { p ≡ p")),
    ("a contract leaves an argument out", OF_LOOKUP, (LOOKUP, r"(LookupPromise table\.now) p", r"\1 0")),
    ("a contract leaves the later buffer out", OF_BAKE, (LOOKUPS, r"(fn bg_bake\b[^}]*out)\.new", r"\1.old")),
    (
        "a contract leaves one of three later states out",
        "log_nudge: its contract: ",
        (LOGGED, r"(fn log_nudge\b[^}]*count)\.new", r"\1.old"),
    ),
    (
        "a contract turns an argument into something that the page does not tell",
        "`power_curve::tag_power`: what stands under Definition is not what the tree gives, without `exponent_of`,",
        (POWERS, r"(PowerPromise x )\(exponent_of gamma\)", r"\1(table_of gamma)"),
    ),
    (
        "an export does not turn an argument as its routine does",
        "beside that of `power_curve::tag_power`",
        (f"{FACE}/src/powers.rt", r"(fn bg_tag_power\b[^}]*)\(exponent_of gamma\)", r"\1gamma"),
    ),
    (
        "a contract is of another call's case",
        "`logged::take_back`: the ladder's numbers are 1, 2:",
        (LOGGED, r"LogPromise take_back", "LogPromise accept"),
    ),
    (
        "an equality is another",
        "within: its contract: ",
        (TABLE, r"Rattle\.std\.specs\.Prelude(\.\{◌≡◌)", r"lib.Path\1"),
    ),
    (
        "a promise of that name is another",
        "`lookup::lut_interp_linear16`: what stands under Definition",
        (LOOKUP, r"(Rattle\.lookup\.specs\.)Promises(\.\{[^}]*LookupPromise)", r"\1Loose\2"),
        ("crates/lookup/specs/Loose.antt", None, "pub record LookupPromise : Type 0 where\n"),
    ),
    (
        "a contract changes an argument by what is not ours",
        "within: its contract: it says `suc`",
        put(TABLE, "within", "result ≡ within low high (suc n)"),
    ),
    (
        "a promise is not where the contract takes it from",
        "least_input: its contract: it says `LeastPromise`",
        ("crates/least/specs/Promises.antt", "record LeastPromise ", "record LeastPromised "),
    ),
    (
        "an export has another routine's contract",
        "beside that of `least::least_input`",
        (INVERSES, contract("bg_least_input") + "(.*)" + contract("bg_lut_inverse_interp16"), r"\1\6\3\4\5\6\7"),
    ),
    (
        "an export's arguments are swapped",
        "beside that of `rows::lut_interp_linear16_row`",
        (LOOKUPS, r"(fn bg_lut_interp_linear16_row\b[^}]*?)table(\.[^}]*?)positions(\.)", r"\1positions\2table\3"),
    ),
    # Laws of one answer that are about something else.
    ("a law ends in something else", "`lookup_one`: it does not end", law(rf"({REST}→ ){REST}", r"\1t ≡ t")),
    ("a law ends in no equality", "`lookup_one`: it must end", law(rf"({REST}→ ){REST}", r"\1Unit")),
    (
        "a law leaves the buffer out",
        "`row_one`: it does not end",
        ("crates/rows/proofs/Promises.antt", r"(pub row_one :.*?→ )\(([^()]*)\) × \([^()]*\)", r"\1\2"),
    ),
    (
        "a law leaves the later state out",
        "`log_one`: it does not end",
        ("crates/logged/proofs/Promises.antt", rf"(pub log_one :{REST}) × \(s' ≡ s\'\'\)", r"\1"),
    ),
    (
        "a law has one of three buffers twice",
        "`bg_log_nudge_one`: it does not end",
        (f"{FACE}/proofs/One.antt", r"(bg_log_nudge\.Post first second) third", r"\1 second"),
    ),
    ("a law is over another promise", "`lookup_one`: it is about", law(rf"({REST})LookupPromise", r"\1OtherPromise")),
    (
        "an export's law is over another promise",
        "`bg_invert_one`: it is about",
        (PAGE, r"(\| `bg_bake` \| `rows::bake` \| )`bg_bake_one`", r"\1`bg_invert_one`"),
    ),
    ("a law has a third premise", "`lookup_one`: it must go", law(r"((?: \{[^}]*\})+ → )", r"\1length t ≡ 0 → ")),
    ("a law asks for the impossible", "`lookup_one`: it asks", law("", " {h : ⊥}")),
    ("its module does", "`lookup_one`: it asks", (LAWS, r"\n(pub lookup_one :)", r"\nmodule _ (h : ⊥) where\n  \1")),
    ("what it stands beneath does", "does not state it", (LAWS, r"\n(pub lookup_one :)", r"\nf h = few where\n  \1")),
    ("a law is a comment", "does not state it", (LAWS, r"\n(pub lookup_one :.*?\n)\n", r"\n{-\n\1-}\n")),
    (
        "a law is of one answer twice",
        "both",
        law(rf"({REST}? → )(LookupPromise {REST}?) → {REST}", r"\1\2 → \2 → r ≡ r"),
    ),
    ("a law is over another export's contract", f"{OF_FACE} is about", *over("bg_lut_interp_linear")),
    ("a law is of another buffer", f"{OF_FACE} does not end", *over("bg_passthrough_table_impl", buffer="second")),
    ("what the face's laws say is less", f"{OF_FACE} does not end", *over("bg_passthrough_table_impl", ends="r ≡ r")),
    # Doors that are hard to see.
    ("an inner function is passed on", "lookup/src: a `pub use`", more(LOOKUP, "pub use inside::lookup;\n")),
    (
        "another crate's inner function is passed on",
        "rows/src: a `pub use`",
        more("crates/rows/src/lib.rt", "pub use lookup::{\n    inside::lookup as looked,\n};\n"),
    ),
    ("comments hide an export", OF_BAKE, (LOOKUPS, EXPORTED, rf"{KEPT}\n// a\n/* /* */ b */\n\1"), bake("C → C")),
    ("an attribute hides an export", OF_BAKE, (LOOKUPS, EXPORTED, rf"{KEPT} #[inline]\n\1"), bake("C → C")),
    ("a function of the face is no export", "the face has exports alone", (LOOKUPS, EXPORTED, r"\1")),
    ("an export has no row", "`bg_more` has no row", more(LOOKUPS, MORE)),
    ("no edit tries an export", "can refuse, for bg_bake:", (f"{FACE}/must-fail/*.edit", r"# bg_bake:[^\n]*\n", "")),
    (
        "a door stands in a deeper folder",
        "`lookup::more::deep::leak` has no block",
        more(LOOKUP, "pub mod more;\n"),
        ("crates/lookup/src/more.rt", None, "pub mod deep;\n"),
        ("crates/lookup/src/more/deep.rt", None, LEAK),
    ),
    ("a door stands in a module of a file", "`lookup::more::leak` has", more(LOOKUP, f"pub mod more {{\n{LEAK}}}\n")),
    (
        "a private module's function is passed on",
        "`house::entries::curve` has no block",
        more("crates/house/src/lib.rt", "pub use entries::curve;\n"),
    ),
    ("the face is called a program", "is the face", (PAGE, "no blocks:", "no blocks: `brassgroat`;")),
    # Made lines that are not what the tree gives, and markers that tell nothing.
    ("a made line is cut by hand", "Must fail is not what", (PAGE, r"(Must fail\*\*: )`constant_lookup`, ", r"\1")),
    ("a law is told otherwise", "under Laws is not what", (PAGE, r"(lookup_never_falls`: )In", r"\1Not in")),
    ("a signature is another", "`rows::bake`: its signature", (PAGE, r"    pub fn bake\(", "    pub fn baked(")),
    ("a made line stands elsewhere", "--write", (PAGE, r"(\n- \*\*Tried[^\n]*)(\n- [^\n]*)", r"\2\1")),
    ("a law loses its marker", "under Laws is not what the tree gives, without", told("lookup_reaches", ".")),
    ("a marker names no call", "[lookup::gone], which is no call", told("lookup_reaches", ". [lookup::gone]")),
    ("a marker stands above no law", "stands above no law", (TOLD, r"(\]\n)(pub lookup_reaches )", r"\1\n\2")),
    ("a marker has no sentence", "comment with a full stop", told("lookup_demand", " [lookup::lut_interp_linear16]")),
    (
        "an edit changes a text that is not there",
        "what it changes is not in crates/lookup/src/lib.rt",
        ("crates/lookup/must-fail/constant_lookup.edit", r"\nold: ", r"\nold: not "),
    ),
    # Written lines that tell too little.
    ("a refusal is not told", "the ladder's numbers are 1, 6:", (PAGE, r"\*\*6\*\* `out` has not 65,536 entries", "6")),
    ("a lent buffer is not told", "`out` is lent for writing", (PAGE, r"(\*\*After\*\*: entry p of )`out`", r"\1it")),
    ("what is tried is not told", "must be, each once and", (PAGE, r"\n- \*\*Tried\*\*: oracle 4[^\n]*", "")),
    ("a routine of the oracle is not named", "no block is tried by routine 4", (PAGE, "oracle 4;", "nothing;")),
    # Pages that cite what is not there.
    ("an edit that is gone is cited", "`gone`", more(TRACE, "lookup/must-fail `gone`\n")),
    ("a law that is gone is cited", "`gone`", more(TRACE, "table/proofs/Order `fact_test`,\n  `gone`\n")),
    ("a field that is gone is cited", "`gone`", more(TRACE, "least/specs/Demand `LeastIs` (the\n  field `gone`)\n")),
    ("a run that is gone is cited", "tests/gone.txt, which", more(TRACE, "tests/gone.txt\n")),
    ("a run's words that are gone are cited", 'for "gone"', more(TRACE, 'tests/log.txt, "gone"\n')),
    ("a part that is gone is cited", 'no part "gone"', more(TRACE, 'see "gone"\n')),
    ("a definition that is gone is told of", "names `GoneDemand`", (PAGE, "`SittingDemand` is", "`GoneDemand` is")),
]


def write(path, content):
    os.makedirs(os.path.dirname(path), exist_ok=True)
    with open(path, "w", encoding="utf-8") as file:
        file.write(content)


def weakened(changes):
    """Makes the changes, and gives what each file held, None for a new one."""
    held = {}
    for pattern, old, new in changes:
        for path in glob(pattern) if old else [pattern]:
            content = contracts.text.__wrapped__(path) if os.path.exists(path) else None
            held.setdefault(path, content)
            write(path, re.sub(old, new, content, flags=re.DOTALL) if old else new)
    return held


def try_all(check, faults):
    """Tries each on a copy of the tree, and gives what went unnoticed."""

    def found():
        faults.clear()
        for value in [*vars(contracts).values(), *vars(made).values()]:
            getattr(value, "cache_clear", int)()
        check()
        return set(faults)

    unnoticed, root = [], os.getcwd()
    with tempfile.TemporaryDirectory() as room:
        for part in ("crates", "docs", "examples", "face", "include", "oracle", "tests"):
            shutil.copytree(part, f"{room}/{part}")
        for file in ("crates.txt", "README.md"):
            shutil.copy(file, room)
        os.chdir(room)
        # So that one line can be missed: every export is named by an edit.
        exports = re.findall(r"fn (bg_\w+)", "".join(map(contracts.text, glob(f"{FACE}/src/*.rt"))))
        weakened([more(min(glob(f"{FACE}/must-fail/*.edit")), "".join(f"# {name}: tried\n" for name in exports))])
        before = found()
        for what, words, *changes in WEAKENINGS:
            held = weakened(changes)
            if not any(words in line for line in found() - before):
                unnoticed.append(f"not noticed: {what}: let the check tell, or let the weakening find what it changes")
            for path, content in held.items():
                os.remove(path) if content is None else write(path, content)
        os.chdir(root)
    print(f"{len(WEAKENINGS) - len(unnoticed)} weakenings noticed", flush=True)
    return "\n".join(unnoticed)
