#!/usr/bin/env python3
"""Compares the documents with the sources.

Fails where docs/proved.md names a file, a function, a law or a clause that does not exist, has no row for a law, or has rows of a crate
that their section does not begin with; where crates.txt does not list the crates of the repository, lowest first and each with its comment;
where the table of crates in docs/architecture.md is not that of crates.txt, or docs/index.md not that of the sources; and where a crate
uses lemmas of another that are not for it; and where README.md or a page of docs/ links to what is not there, or README.md to a page
not at all. With --write it writes that table and that page.
"""
import re
import sys

sys.dont_write_bytecode = True
import lemmas
import pages
from pages import ROOT

CLAIMS = ROOT / "docs/proved.md"
LINK = re.compile(r"\]\(([^)#]*)(#[^)]*)?\)")
WORD = re.compile(r"`([^`]+)`")
# A public function of no parameters and no result that ensures something.
LAW = re.compile(r"^pub fn (\w+)(?:<[^(]*>)?\(\)\n(?:(?!\{|pub fn).*\n)*? *ensures", re.MULTILINE)


def heads_of(source, name):
    """The heads of the functions of this name, with their clauses."""
    return re.findall(rf"\bfn {re.escape(name)}\b.*?(?:^ *\{{|\{{$|;$)", source, re.DOTALL | re.MULTILINE)


def faults_of_row(claim, clauses, file):
    """What a row of the table says that the sources do not."""
    files = WORD.findall(file)
    if len(files) != 1 or not (ROOT / files[0]).is_file():
        return [f"no file {file.strip()}"]
    source = (ROOT / files[0]).read_text()
    faults = [] if WORD.search(clauses) else [f"no function beside {claim.strip()}"]
    for part in clauses.split(";"):
        function, *names = WORD.findall(part) or [None]
        if function is None:
            continue
        heads = heads_of(source, function.split("::")[-1])
        if not heads:
            faults.append(f"no function {function} in {files[0]}")
            continue
        for name in names:
            if not any(re.search(rf"(?:ensures\*?|ghost) {re.escape(name)}\b", head) for head in heads):
                faults.append(f"no clause {name} of {function} in {files[0]}")
    return faults


def rows_of_claims():
    """The rows of the tables of docs/proved.md, each with the number of its line."""
    for number, line in enumerate(CLAIMS.read_text().splitlines(), 1):
        cells = re.split(r"(?<!\\)\|", line.strip().strip("|"))
        if line.startswith("|") and cells[-1].strip() not in ("file", "---"):
            yield number, cells


def faults_of_claims():
    """The faults of docs/proved.md, each with its line."""
    number = 0
    for number, cells in rows_of_claims():
        faults = faults_of_row(*cells) if len(cells) == 3 else ["not three cells"]
        yield from (f"{CLAIMS.relative_to(ROOT)}:{number}: {fault}" for fault in faults)
    if number == 0:
        yield f"{CLAIMS.relative_to(ROOT)}: no rows"


def faults_of_sections():
    """The rows of a crate that its section does not begin with, and the crates that no section begins with."""
    named = set()
    for section in CLAIMS.read_text().split("\n## ")[1:]:
        found = re.match(r".*\n\nCrates: ([^.]*)\.\n", section)
        own = set(re.split(r",\s+", found[1])) if found else set()
        named |= own
        for crate in sorted(set(re.findall(r"`crates/(\w+)/[^`]*` \|$", section, re.MULTILINE)) - own):
            yield f"{CLAIMS.relative_to(ROOT)}: {crate} is not among the crates that {section.splitlines()[0]} begins with"
    tested = {crate for crate in pages.crates() if not crate.startswith("ec_tests")}
    yield from (f"{CLAIMS.relative_to(ROOT)}: no section begins with {crate}, or there is no such crate" for crate in sorted(named ^ tested))


def faults_of_laws():
    """The laws that a library exports and that no row names."""
    named = {(file, name) for _, cells in rows_of_claims() for file in WORD.findall(cells[-1]) for name in WORD.findall(cells[-2])}
    for root in sorted(ROOT.glob("crates/*/src/lib.rt")):
        text = root.read_text()
        exported = {name for names in re.findall(r"^pub use ([^;]*);", text, re.MULTILINE) for name in re.findall(r"\w+", names)}
        public = {f"{name}.rt" for name in re.findall(r"^pub mod (\w+);", text, re.MULTILINE)} | {root.name}
        for path in sorted(root.parent.rglob("*.rt")):
            file = str(path.relative_to(ROOT))
            for name in LAW.findall(path.read_text()):
                if (name in exported or path.name in public) and (file, name) not in named:
                    yield f"{CLAIMS.relative_to(ROOT)}: no row for the law {name} of {file}"


def faults_of_links():
    """The links of README.md and docs/ that lead nowhere, and the pages to which README.md has none."""
    readme = ROOT / "README.md"
    pages_of_docs = sorted((ROOT / "docs").glob("*.md"))
    for page in [readme, *pages_of_docs]:
        for path, _ in LINK.findall(page.read_text()):
            if not (page.parent / path).exists():
                yield f"{page.relative_to(ROOT)}: no {path}, to which it links"
    linked = {path for path, _ in LINK.findall(readme.read_text())}
    names = [str(page.relative_to(ROOT)) for page in pages_of_docs]
    yield from (f"README.md: no link to {name}" for name in names if name not in linked)


def main():
    is_written = sys.argv[1:] == ["--write"]
    faults = [
        *pages.faults_of_crates(),
        *pages.faults_of_table(is_written),
        *pages.faults_of_index(lemmas.public_modules(), is_written),
        *lemmas.faults(),
        *faults_of_claims(),
        *faults_of_sections(),
        *faults_of_laws(),
        *faults_of_links(),
    ]
    print("\n".join([*faults, f"documents: {len(faults)} faults"]))
    return 1 if faults else 0


if __name__ == "__main__":
    sys.exit(main())
