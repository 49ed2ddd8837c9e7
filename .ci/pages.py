"""The texts that a script writes: the table of crates in docs/architecture.md, of crates.txt, and the page docs/index.md.

`crates.txt` has the crates, lowest first, under comments that begin with `Layer:`. The comment line directly above a crate says what the
layer above may use of it.
"""
import functools
import pathlib
import re
import textwrap

ROOT = pathlib.Path(__file__).resolve().parent.parent
CRATES = ROOT / "crates.txt"
ARCHITECTURE = ROOT / "docs/architecture.md"
BEGIN = "<!-- Written from crates.txt by `python3 .ci/check_docs.py --write`: begin. -->\n"
END = "<!-- end -->\n"
INDEX = ROOT / "docs/index.md"
INDEX_HEAD = """This page is written by `python3 .ci/check_docs.py --write`.

## Definitions

The files of each crate's `specs/`, in the order of `crates.txt`, each with the names that it defines. `docs/definitions.md` walks through them.
"""
LEMMAS_HEAD = """The modules of lemmas that a crate's `proofs/Lib.antt` names under `-- For all crates above.`, each with what its first comment says.
"""
DEFINITION = re.compile(r"^(?:abbrev |unfoldable )?pub (?:record |data )?([^\s:({]+)", re.MULTILINE)
NO_DEFINITION = ("mod", "use", "record", "data")


@functools.cache
def crates():
    """By the name of each crate, in order: its layer, the crates of the repository that it uses, and what the layer above may use."""
    found, layer, said = {}, None, None
    for line in CRATES.read_text().splitlines():
        if line.startswith("# Layer:"):
            layer, said = line.removeprefix("# Layer:").strip(" ."), None
        elif line.startswith("#"):
            said = line.removeprefix("#").strip()
        elif line.strip():
            name, _, uses = line.partition(":")
            found[name.split()[0]] = (layer, uses.split(), said)
            said = None
    return {name: (layer, [use for use in uses if use in found], said) for name, (layer, uses, said) in found.items()}


@functools.cache
def below(name):
    """All crates that this one stands on."""
    return {name for use in crates()[name][1] for name in (use, *below(use))}


@functools.cache
def longest(name):
    """How many crates the longest chain from this one down has."""
    return 1 + max(map(longest, crates()[name][1]), default=0)


def faults_of_crates():
    """What is wrong with crates.txt itself."""
    seen = set()
    for name, (layer, uses, said) in crates().items():
        if layer is None or not said:
            yield f"crates.txt: {name} has no layer, or no comment above it"
        yield from (f"crates.txt: {name} stands above {use}, which it uses" for use in uses if use not in seen)
        seen.add(name)
    folders = {path.name for path in (ROOT / "crates").iterdir() if (path / "src").is_dir()}
    yield from (f"crates.txt: {name} is listed without a folder, or the other way round" for name in sorted(folders ^ seen))


def table():
    """The table of crates, with a row for each layer before its crates."""
    lines, last = [], None
    lines.append(f"{len(crates())} crates, of which the longest chain has {max(map(longest, crates()))}.\n")
    lines += ["| crate | stands on | what the layer above may use |", "|---|---|---|"]
    for name, (layer, uses, said) in crates().items():
        if layer != last:
            lines.append(f"| **{layer}** | | |")
            last = layer
        alone = [use for use in uses if not any(use in below(other) for other in uses)]
        stands = ", ".join(sorted(alone, key=list(crates()).index))
        lines.append(f"| {name} |{' ' + stands if stands else ''} | {(said or '').replace('|', chr(92) + '|')} |")
    return "\n".join(lines) + "\n"


def with_table(text):
    """The page with the table of crates written anew, or nothing where the marks do not stand there once."""
    if text.count(BEGIN) != 1 or text.count(END) != 1:
        return None
    before, _, rest = text.partition(BEGIN)
    return before + BEGIN + "\n" + table() + "\n" + END + rest.partition(END)[2]


def faults_of_table(is_written):
    """Whether docs/architecture.md has the table as crates.txt has it; it is written first where that is asked for."""
    text = ARCHITECTURE.read_text()
    wanted = with_table(text)
    if wanted is None:
        yield f"{ARCHITECTURE.relative_to(ROOT)}: the marks of the table of crates do not stand there once"
    elif is_written:
        ARCHITECTURE.write_text(wanted)
    elif text != wanted:
        yield from differences(ARCHITECTURE, wanted, text)


def differences(path, wanted, text):
    """The lines of a written page that are missing or no longer so."""
    other = sorted(set(wanted.splitlines()) ^ set(text.splitlines())) or ["the order of lines"]
    yield from (f"{path.relative_to(ROOT)}: not as the sources have it: {line[:100]}" for line in other)


def definitions():
    """By crate and file, in the order of crates.txt: the names that a file of definitions defines."""
    for crate in crates():
        folder = ROOT / "crates" / crate / "specs"
        for file in sorted(folder.rglob("*.antt")):
            names = [name for name in DEFINITION.findall(file.read_text()) if name not in NO_DEFINITION]
            if names:
                yield crate, ".".join(file.relative_to(folder).with_suffix("").parts), names


def index(modules):
    """The page docs/index.md, with these lemma modules: crate, name and what each says of itself."""
    items = [f"- {crate}, {file}: {', '.join(f'`{name}`' for name in names)}" for crate, file, names in definitions()]
    lemmas = [f"- {crate}, {module}: {said}" for crate, module, said in modules]
    filled = [textwrap.fill(item, 150, subsequent_indent="  ", break_long_words=False, break_on_hyphens=False) for item in (*items, *lemmas)]
    first, second = filled[: len(items)], filled[len(items) :]
    return "\n".join(["# Index", "", INDEX_HEAD, *first, "", "## Lemmas for all crates above", "", LEMMAS_HEAD, *second]) + "\n"


def faults_of_index(modules, is_written):
    """Whether docs/index.md is as the sources have it; it is written first where that is asked for."""
    wanted = index(modules)
    if is_written:
        INDEX.write_text(wanted)
    elif not INDEX.is_file() or INDEX.read_text() != wanted:
        yield from differences(INDEX, wanted, INDEX.read_text() if INDEX.is_file() else "")
