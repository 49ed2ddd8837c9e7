"""Tells where in a map the fault stands that the tool told: `map_faults.py MAP LINE`, where LINE is `map: rule K` or `map: not TOML`.

It writes `MAP:LINE:COLUMN: note: TEXT`, with the port, group or region, the key and the value that break the rule, and nothing where it
finds none. The line is left out where the map writes the item in another form than a table of its own. The rules are those of
docs/map.md; that one is broken the tool has told, and here only its place is sought.
"""
import contextlib
import pathlib
import re
import sys

ADDRESSES = set(range(0x20, 0x100)) - {0x5D, 0x5E, 0x5F}
# The addresses of the ports of each core, where its regions lie, and the greatest address at which an object stands.
PORTS = {"small": ADDRESSES, "large": ADDRESSES - {0x5B}}
BANKS = {
    "small": {"code": (0, 32_768), "tables": (0, 32_768), "data": (256, 2_304), "stack": (256, 2_304)},
    "large": {"code": (0, 131_072), "tables": (0, 65_535), "far": (0, 131_071), "data": (256, 16_640), "stack": (256, 16_640)},
}
LAST_PLACE = {"small": 65_535, "large": 131_071}
PORT_KEYS, GROUP_KEYS, DYNAMIC_KEYS = ("name", "address", "width"), ("name", "acquire", "release"), ("name", "choices")


def is_number(value, least=-(2**63), most=2**63 - 1):
    return type(value) is int and least <= value <= most


def is_pair(value):
    return isinstance(value, list) and len(value) == 2 and all(map(is_number, value))


def quoted(value):
    """A value as it stands in a map."""
    return repr(value).replace("'", '"')


def keys(table, item, needed, others=()):
    """The keys that a table lacks, or has and should not."""
    if not isinstance(table, dict):
        yield item, None, table, "is no table"
        return
    yield from ((item, key, None, "is missing") for key in needed if key not in table)
    yield from ((item, key, value, "is no key here") for key, value in table.items() if key not in (*needed, *others))


def tables(given, kind, most, needed, others=()):
    """What is wrong with an array of tables."""
    if not isinstance(given, list) or len(given) > most:
        yield (), kind, None, f"is no array of at most {most} tables"
        return
    for i, table in enumerate(given):
        yield from keys(table, (kind, i), needed, others)


def names(given, kind, groups=()):
    """Names that are no identifiers, or stand twice, or are those of groups."""
    seen = {group["name"]: f"group {i}" for i, group in enumerate(groups, 1)}
    for i, table in enumerate(given):
        name = table["name"]
        if not isinstance(name, str) or not re.fullmatch(r"[A-Za-z_][A-Za-z0-9_]*", name, re.ASCII):
            yield (kind, i), "name", name, "is no identifier"
        elif name in seen:
            yield (kind, i), "name", name, f"is the name of {seen[name]} too"
        seen.setdefault(name if isinstance(name, str) else None, f"{kind} {i + 1}")


def regions(table, holds, why):
    """Regions for which something does not hold."""
    yield from ((("region",), key, table[key], why(key)) for key in table if not holds(key, table[key]))


def sizes(ports):
    for i, port in enumerate(ports):
        if not (is_number(port["width"]) and port["width"] in (1, 2, 4)):
            yield ("port", i), "width", port["width"], "is none of 1, 2 and 4"
        if not is_number(port.get("count", 1), 1, 220):
            yield ("port", i), "count", port["count"], "is not from 1 to 220"


def dynamic_group(port, given):
    """The first table of `dynamic` that has the name of a port's group, none where the port is not dynamic."""
    dynamics, group = given.get("dynamic"), port.get("group")
    tables = [table for table in dynamics if isinstance(table, dict)] if isinstance(dynamics, list) else []
    return next((table for table in tables if isinstance(group, str) and table.get("name") == group), None)


def are_ports(first, port, core):
    """Whether all bytes of a port are ports of the core where it begins at an address."""
    return PORTS[core].issuperset(range(first, first + port["width"] * port.get("count", 1)))


def no_ports(core):
    return f"not the address of ports alone: 0x20 to 0xFF but for {'0x5B, ' * (core == 'large')}0x5D, 0x5E and 0x5F"


def addresses(given, core):
    for i, port in enumerate(given["port"]):
        first = port["address"]
        if not is_number(first, 0, 255):
            yield ("port", i), "address", first, "is not from 0 to 255"
        elif dynamic_group(port, given) is None and not are_ports(first, port, core):
            yield ("port", i), "address", first, f"is {no_ports(core)}"


def sums(given, core):
    """Dynamic ports that are no ports from the base of a choice on."""
    for i, port in enumerate(given.get("port", [])):
        dynamic = dynamic_group(port, given) or {"choices": []}
        for group, base in dynamic["choices"]:
            if not are_ports(base + port["address"], port, core):
                told = f"and the base {base} of the choice `{group}` of `{port['group']}` are {no_ports(core)}"
                yield ("port", i), "address", port["address"], told


def lists(groups, holds, why):
    """Lists of writes for which something does not hold."""
    for i, group in enumerate(groups):
        yield from ((("group", i), key, group[key], why) for key in GROUP_KEYS[1:] if not holds(group[key]))


def are_pairs(value):
    return isinstance(value, list) and len(value) <= 32 and all(map(is_pair, value))


def are_writes(value, core):
    return all(port in PORTS[core] and is_number(byte, 0, 255) for port, byte in value)


def end(pair):
    return pair[0] + pair[1]


def shared(table):
    """Regions that share bytes with one before it in its bank."""
    for one, other in (("code", "tables"), ("code", "far"), ("tables", "far"), ("data", "stack")):
        if {one, other} <= table.keys() and max(table[one][0], table[other][0]) < min(end(table[one]), end(table[other])):
            yield ("region",), other, table[other], f"shares bytes with `{one}`, {table[one]}"


def unknown_groups(given):
    known = {group["name"] for group in given.get("group", [])}
    for i, port in enumerate(given.get("port", [])):
        is_known = isinstance(port.get("group"), str) and port["group"] in known
        if "group" in port and not is_known and dynamic_group(port, given) is None:
            yield ("port", i), "group", port["group"], "is the name of no group of the map"


def is_choice(value, known):
    """Whether a choice is the name of a group and a base."""
    return isinstance(value, list) and len(value) == 2 and isinstance(value[0], str) and value[0] in known and is_number(value[1], 0, 255)


def choices(given):
    known = {group["name"] for group in given.get("group", [])}
    for i, dynamic in enumerate(given["dynamic"]):
        value = dynamic["choices"]
        if not isinstance(value, list) or not 1 <= len(value) <= 8:
            yield ("dynamic", i), "choices", value, "is no array of 1 to 8 choices"
            continue
        for k, choice in enumerate(value):
            if not is_choice(choice, known):
                yield ("dynamic", i), "choices", value, f"has {quoted(choice)}, which is not the name of a group and a base from 0 to 255"
            elif any(choice[0] == other[0] or choice[1] == other[1] for other in value[:k]):
                yield ("dynamic", i), "choices", value, f"has {quoted(choice)}, whose group or base stands in a choice before it"


def faults(given, rule):
    """What breaks a rule of a map: the item, the key, the value, and what is wrong with it. All earlier rules hold."""
    region, ports, groups, place = (given.get(key, {}) for key in ("region", "port", "group", "place"))
    core = given.get("core") if given.get("core") == "large" else "small"
    banks, last = BANKS[core], LAST_PLACE[core]
    checks = {
        1: lambda: keys(given, (), ("core", "region"), ("port", "group", "place", "dynamic")),
        2: lambda: [((), "core", given["core"], "is not the string \"small\" or \"large\"")],
        3: lambda: keys(region, ("region",), tuple(BANKS["small"]), tuple(banks)),
        4: lambda: regions(
            region,
            lambda _, pair: is_pair(pair) and is_number(pair[0], 0, 131_072) and is_number(pair[1], 1, 131_072),
            lambda _: "is not a first address from 0 and a size from 1, each at most 131072",
        ),
        5: lambda: regions(
            region,
            lambda key, pair: banks[key][0] <= pair[0] and end(pair) <= banks[key][1],
            lambda key: f"does not lie in {banks[key][0]} to {banks[key][1]}: it ends by {end(region[key])}",
        ),
        6: lambda: [(("region",), "code", region["code"], "does not begin at 0, or its size is odd")],
        7: lambda: shared(region),
        8: lambda: tables(given["port"], "port", 64, PORT_KEYS, ("count", "group")),
        9: lambda: names(ports, "port"),
        10: lambda: sizes(ports),
        11: lambda: addresses(given, core),
        12: lambda: tables(given["group"], "group", 16, GROUP_KEYS),
        13: lambda: names(groups, "group"),
        14: lambda: lists(groups, are_pairs, "is no array of at most 32 arrays of two integers"),
        15: lambda: lists(groups, lambda pairs: are_writes(pairs, core), "has a pair that is not the address of a port and a byte from 0 to 255"),
        16: lambda: unknown_groups(given),
        17: lambda: [((), "place", place, "is no table")],
        18: lambda: ((("place",), key, value, f"is not from 1 to {last}") for key, value in place.items() if not is_number(value, 1, last)),
        19: lambda: tables(given["dynamic"], "dynamic", 8, DYNAMIC_KEYS),
        20: lambda: names(given["dynamic"], "dynamic", groups),
        21: lambda: choices(given),
        22: lambda: sums(given, core),
    }
    return checks[rule]()


def line_of(text, given, item, key):
    """The line of a key, from 1: below the header of its table, where each table of the array has one; None where there is none."""
    lines = text.split("\n")
    headers = [i for i, line in enumerate(lines) if re.match(r"\s*\[\[?[^\[\],]*\]\]?\s*(#.*)?$", line)] + [len(lines)]
    start, stop = -1, headers[0]
    if item:
        brackets = (r"\[\[", r"\]\]") if len(item) == 2 else (r"\[", r"\]")
        own = [i for i in headers[:-1] if re.match(rf"\s*{brackets[0]}\s*{item[0]}\s*{brackets[1]}", lines[i])]
        if len(own) != (len(given[item[0]]) if len(item) == 2 else 1):
            return None
        start = own[item[1] if len(item) == 2 else 0]
        stop = headers[headers.index(start) + 1]
    found = (i + 1 for i in range(start + 1, stop) if re.match(rf"\s*\"?{re.escape(str(key))}\"?\s*=", lines[i]))
    return next(found, start + 1 or None)


def name_of(item, given):
    """A port or a group by its number, from 1, and its name."""
    if len(item) < 2:
        return "".join(f"{name} " for name in item)
    table = given[item[0]][item[1]]
    name = table.get("name") if isinstance(table, dict) else None
    return f"{item[0]} {item[1] + 1}{f' `{name}`' if isinstance(name, str) else ''}: "


def note(path, told):
    """The place of the fault, as a line; none where it is not found."""
    import tomllib

    text = pathlib.Path(path).read_bytes().decode(errors="replace")
    try:
        given = tomllib.loads(text)
    except tomllib.TOMLDecodeError as error:
        found = re.fullmatch(r"(.*) \(at line (\d+), column (\d+)\)", str(error))
        return f"{path}:{found[2]}:{found[3]}: note: {found[1]}" if found else f"{path}: note: {error}"
    rule = re.fullmatch(r"map: rule (\d+)", told)
    item, key, value, why = next(iter(faults(given, int(rule[1]))))
    line = line_of(text, given, item, key)
    shown = "" if key is None else f"`{key}`" if value is None else f"`{key} = {quoted(value)}`"
    return f"{path}:{f'{line}:1: ' if line else ' '}note: {name_of(item, given)}{shown} {why}"


def main():
    # The fault is told already: that its place is not found, or that an older python3 reads no TOML, is no fault of its own.
    with contextlib.suppress(OSError, ImportError, LookupError, TypeError, AttributeError, StopIteration):
        print(note(*sys.argv[1:]))


main()
