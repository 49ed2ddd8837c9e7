"""Tells faults of preprocessed texts at the author's own lines (bin/napledge-cpp).

It reads what bin/napledge-where says and writes it again. Where a line begins with a file, a line and a column, and beside the file lies
its table FILE.lines, these become the author's file, line and column, and the shown line the author's. Where macros were replaced in the
line there is no column, and the line is also shown with what the preprocessor made of it.
"""
import pathlib
import re
import sys

PLACE = re.compile(r"(.+?):(\d+):(\d+): (.*)\n", re.DOTALL)
TOKEN = re.compile(r"/\*.*?(?:\*/|$)|//.*|'(?:\\.|[^'\\])*'|[\w.]+|\S")


def lines_of(path):
    """The lines of a file, none where it cannot be read."""
    try:
        return pathlib.Path(path).read_bytes().decode("latin-1").split("\n")
    except OSError:
        return []


def tokens(line):
    """The tokens of a line without comments, each with its column from 1."""
    return [(found[0], found.start() + 1) for found in TOKEN.finditer(line) if not found[0].startswith(("/*", "//"))]


def own_column(made, own, column):
    """The column in the author's line of what stands at a column of the made one; None where their tokens are not the same."""
    before, after = tokens(made), tokens(own)
    if [token for token, _ in before] != [token for token, _ in after]:
        return None
    for (_, start), (_, own_start) in reversed(list(zip(before, after))):
        if start <= column:
            return own_start + column - start
    return None


def own_place(found):
    """The author's file, line, text of it and column of a place, with the text that was made of it; None where there is no table."""
    table = lines_of(f"{found[1]}.lines")
    line, column = int(found[2]), int(found[3])
    if not 0 < line < len(table):
        return None
    file, _, at = table[line - 1].rpartition(":")
    texts, made = lines_of(file), lines_of(found[1])[line - 1]
    own = texts[int(at) - 1].rstrip("\r") if 0 < int(at) <= len(texts) else ""
    return file, at, own, own_column(made, own, column), made


def told(lines):
    """The lines as the author knows them."""
    while lines:
        line = lines.pop(0)
        found = PLACE.fullmatch(line)
        place = own_place(found) if found else None
        if not place:
            yield line
            continue
        file, at, own, column, made = place
        yield f"{file}:{at}:{column}: {found[4]}\n" if column else f"{file}:{at}: {found[4]}\n"
        if lines and lines[0].rstrip("\n") == made:
            shown, mark = lines.pop(0), lines.pop(0) if lines else ""
            yield f"{own}\n"
            # Tabs stay under tabs, so that the mark stands under its token.
            yield re.sub(r"[^\t]", " ", own[: column - 1]) + "^\n" if column else f"with its macros replaced:\n{shown}{mark}"


def main():
    sys.stdin.reconfigure(encoding="latin-1", newline="")
    sys.stdout.reconfigure(encoding="latin-1", newline="")
    sys.stdout.writelines(told(sys.stdin.readlines()))


main()
