"""Which lemmas of a crate other crates may use.

Crates use each other's laws. Lemmas of another crate's `proofs/` are used only where that crate's `proofs/Lib.antt` names their module
`pub mod`: under `-- For all crates above.`, or for crates of the same family alone under `-- For the crates of the family.`. Every other
module is `mod`, under `-- For this crate alone.` where one of the two stands before it. Crates of tests may use any.
"""
import collections
import functools
import re

from pages import ROOT, crates

ALL, FAMILY, OWN = "For all crates above.", "For the crates of the family.", "For this crate alone."
FAMILIES = (
    ("ec_lex", "ec_parse"),
    ("ec_core",),
    ("ec_check",),
    ("ec_lower",),
    ("ec_asm",),
    ("ec_select", "ec_fxcode"),
    ("ec_build",),
    ("ec_commands", "ec_driver", "ec_judge"),
)
USE = re.compile(r"\bRattle\.(ec_\w+)\.proofs\.(\w+)|\b(ec_\w+)::proofs::(\w+)")


def family(crate):
    """The family of a crate: the first names that all its crates begin with, or the crate alone."""
    return next((stems for stems in FAMILIES if any(crate == stem or crate.startswith(stem + "_") for stem in stems)), (crate,))


@functools.cache
def users():
    """By crate and module: the other crates that import the module."""
    found = collections.defaultdict(set)
    for crate in crates():
        for path in (ROOT / "crates" / crate).rglob("*"):
            if path.suffix in (".antt", ".rt") and "out" not in path.parts:
                for of, module, other, also in USE.findall(path.read_text()):
                    if (of or other) != crate:
                        found[of or other, module or also].add(crate)
    return found


def groups(crate):
    """The lemma modules of a crate, in order: the group of each, its name, and whether it is public."""
    path = ROOT / "crates" / crate / "proofs/Lib.antt"
    group = OWN
    for line in path.read_text().splitlines() if path.is_file() else ():
        if line.removeprefix("-- ") in (ALL, FAMILY, OWN):
            group = line.removeprefix("-- ")
        elif found := re.fullmatch(r"(pub )?mod (\w+)", line):
            yield group, found[2], found[1] is not None


def faults():
    """Where an import or a list of lemma modules breaks the rule."""
    group_of = {}
    for crate in crates():
        for group, module, is_public in groups(crate):
            group_of[crate, module] = group
            others = users()[crate, module]
            if is_public != (group != OWN):
                yield f"crates/{crate}/proofs/Lib.antt: {module} is public and of no group, or the other way round"
            if group == ALL and all(family(other) == family(crate) for other in others):
                yield f"crates/{crate}/proofs/Lib.antt: no crate outside the family uses {module}"
            if group == FAMILY and not others:
                yield f"crates/{crate}/proofs/Lib.antt: no other crate uses {module}"
    for (crate, module), others in sorted(users().items()):
        group = group_of.get((crate, module), OWN)
        for other in sorted(others):
            is_kin = group == FAMILY and family(other) == family(crate)
            if group != ALL and not is_kin and not other.startswith("ec_tests"):
                yield f"crates/{other}: uses {crate}.proofs.{module}, which its Lib.antt does not give it"


def first_sentence(crate, module):
    """What the comment at the head of a lemma module says first."""
    head = re.match(r"(?:--.*\n)*", (ROOT / "crates" / crate / f"proofs/{module}.antt").read_text())[0]
    said = re.sub(r"\s*\n?--\s*", " ", head).strip()
    return re.match(r".*?(?:[.:](?=\s|$)|$)", said)[0].rstrip(".:") + "."


def public_modules():
    """The lemma modules for all crates above, each with its crate and the first sentence of its comment."""
    for crate in crates():
        yield from ((crate, module, first_sentence(crate, module)) for group, module, _ in groups(crate) if group == ALL)
