"""What is made of the words of refusals, bindings/rust/texts.toml, and of the limits, crates/definition/src/lib.rt: parts
of files between two marks, which `tools/papers --write` writes and `tools/papers` compares. Needs Python 3.11."""
import pathlib
import re
import textwrap
import tomllib

ROOT = pathlib.Path(__file__).resolve().parent.parent
TABLE = ROOT / "bindings/rust/texts.toml"
LIMITS = ROOT / "crates/definition/src/lib.rt"
NUMBERS = ROOT / "crates/definition/specs/Refusals.antt"
CAUSES = ROOT / "examples/causes"
WIDEST = 120

NEEDED = {"number", "name", "found", "advice"}
KNOWN = NEEDED | {"about", "sentence", "heading", "cause"}
OF_CAUSE = {"name", "when", "sentence", "advice"}

# The comments, in whatever form the file has them, between which a part stands.
MARKS = "made by tools/papers --write: {}", "end of {}"


def limits():
    """Name, number and sentence of each limit, in order. One that another one says is no limit of its own."""
    source = LIMITS.read_text(encoding="utf-8")
    found = re.findall(r"^((?:/// .*\n)+)pub const (\w+): \w+ = (\d+);", source, re.MULTILINE)
    return [(name, int(number), " ".join(said.replace("///", "").split())) for said, name, number in found]


def outside(name):
    """What C and Rust call a limit."""
    return {"LEAST_WORK": "WORK"}.get(name, name)


def filled(text, values):
    """A text with its limits as numbers, `{MOST_BYTES}` or what is reckoned with one, `{2 ** MOST_ITEMS}`."""
    def number(found):
        return f"{eval(found[1], {'__builtins__': {}}, values):,}"
    return re.sub(r"\{(?!word\}|item\})([^}]*)\}", number, text)


class Texts:
    """The table, with its limits filled in."""

    def __init__(self):
        table = tomllib.loads(TABLE.read_text(encoding="utf-8"))
        values = {name: number for name, number, _ in limits()}
        self.sets = [(s["name"], s["order"]) for s in table["set"]]
        def all_filled(row):
            return {key: filled(value, values) if isinstance(value, str) else value for key, value in row.items()}

        self.refusals = [all_filled(refusal) for refusal in table["refusal"]]
        self.causes = [(r["number"], all_filled(cause)) for r in self.refusals for cause in r.get("cause", [])]

    def faults(self):
        """What is wrong with the table."""
        numbers = [r["number"] for r in self.refusals]
        if numbers != sorted(set(numbers)):
            yield "texts.toml: the numbers do not rise"
        defined = re.findall(r"^refusal_number .* = (\d+)$", NUMBERS.read_text(encoding="utf-8"), re.MULTILINE)
        for number in sorted({int(n) for n in defined} ^ set(numbers)):
            yield f"texts.toml: refusal {number} is not in both, the table and the definition"
        for r in self.refusals:
            if not NEEDED <= set(r) <= KNOWN or ("about" in r) != ("sentence" in r):
                yield f"texts.toml: refusal {r.get('number')} has not the keys of a refusal"
            elif "{" in r["found"] + r["advice"]:
                yield f"texts.toml: refusal {r['number']} names a word outside its sentence"
        names = [(number, cause["name"]) for number, cause in self.causes]
        for number, name in sorted({name for name in names if names.count(name) > 1}):
            yield f"texts.toml: two causes of {number} are called {name}"
        for number, cause in self.causes:
            if not OF_CAUSE <= set(cause) <= OF_CAUSE | {"words"}:
                yield f"texts.toml: {cause.get('name')} of {number} has not the keys of a cause"
            elif "{" in cause["advice"]:
                yield f"texts.toml: {cause['name']} of {number} names a word outside its sentence"
            elif cause["when"] != "asked" and not list(CAUSES.glob(f"{number}-{cause['name']}.*")):
                yield f"texts.toml: examples/causes has no example of {number}-{cause['name']}"
        for path in CAUSES.iterdir():
            if path.name.split(".")[0] not in {f"{number}-{name}" for number, name in names}:
                yield f"examples/causes: {path.name} is of no cause"


def constant(refusal):
    return "COPYBOOK_" + refusal["name"].upper().replace("-", "_")


def quoted(text):
    """A text as C and Rust write it."""
    escaped = text.replace("\\", "\\\\").replace('"', '\\"')
    return '"' + re.sub(r"[\0-\x1f]", lambda found: f"\\x{ord(found[0]):02x}", escaped) + '"'


def header_limits(_):
    for name, number, sentence in limits():
        yield f"/* {sentence} */"
        yield f"#define COPYBOOK_{outside(name)} {number}"


def header_numbers(texts):
    for i, r in enumerate(texts.refusals):
        if "heading" in r:
            yield from [""] * (i > 0)
            lines = textwrap.wrap(r["heading"], WIDEST - 10)
            yield from ("    " + ("/* " if k == 0 else "   ") + line + " */" * (k == len(lines) - 1)
                        for k, line in enumerate(lines))
        yield f"    {constant(r)} = {r['number']},"


def header_sets(texts):
    yield "/*"
    yield " * Refusals that several calls have, in the order in which they are looked for:"
    widest = max(len(name) for name, _ in texts.sets)
    for name, order in texts.sets:
        yield f" *   {name:<{widest}}  {order}"
    yield " */"


def header_texts(texts):
    yield "#define COPYBOOK_REFUSALS(R) \\"
    last = texts.refusals[-1]
    for r in texts.refusals:
        yield f"    R({constant(r)}, {quoted(r['found'])}, \\"
        yield f"      {quoted(r['advice'])})" + " \\" * (r is not last)


def rust_limits(_):
    for i, (name, number, sentence) in enumerate(limits()):
        yield from [""] * (i > 0)
        yield f"/// {sentence}"
        yield f"pub const {outside(name)}: usize = {number:_};"


def rust_rows(texts):
    for r in texts.refusals:
        yield "    Row {"
        yield f"        number: {r['number']},"
        yield f"        name: {quoted(r['name'])},"
        yield f"        about: About::{r.get('about', 'nothing').capitalize()},"
        for key in ("found", "sentence", "advice"):
            yield f"        {key}: {quoted(r.get(key, ''))},"
        if "cause" not in r:
            yield "        causes: &[],"
        else:
            yield "        causes: &["
            yield from (line for number, cause in texts.causes if number == r["number"] for line in rust_cause(cause))
            yield "        ],"
        yield "    },"


def rust_cause(cause):
    yield "            Cause {"
    yield f"                name: {quoted(cause['name'])},"
    yield f"                when: When::{cause['when'].title().replace('-', '')},"
    yield f"                words: &[{', '.join(map(quoted, cause.get('words', [])))}],"
    for key in ("sentence", "advice"):
        yield f"                {key}: {quoted(cause[key])},"
    yield "            },"


def rust_sets(texts):
    for name, order in texts.sets:
        yield f"//! - {name}: {order}"


def paper_rows(texts):
    yield from ["", "| Number | Name | What was found | What to do |", "|---|---|---|---|"]
    for r in texts.refusals:
        yield f"| {r['number']} | {r['name']} | {r['found']} | {r['advice']} |"
    yield ""


def paper_causes(texts):
    """What is said by cause; a place or a word that is named there stands as `...`."""
    yield from ["", "| Number | Cause | What is said | What to do |", "|---|---|---|---|"]
    for number, cause in texts.causes:
        said = re.sub(r"\{(word|item)\}", "...", cause["sentence"])
        yield f"| {number} | {cause['name']} | {said} | {cause['advice']} |".replace(" | fold", r" \| fold").replace(
            " | iconv", r" \| iconv")
    yield ""


def paper_sets(texts):
    yield ""
    for name, order in texts.sets:
        yield f"- *{name}*: {order}"
    yield ""


def paper_limits(_):
    yield from ["", "| Limit | | |", "|---|---|---|"]
    for name, number, sentence in limits():
        yield f"| `{name}` | {number:,} | {sentence[0].lower() + sentence[1:].rstrip('.')} |"
    yield ""


# The parts of each file.
PARTS = {
    "include/copybook.h": {
        "limits": header_limits, "numbers": header_numbers, "texts": header_texts, "sets of refusals": header_sets,
    },
    "bindings/rust/src/limits.rs": {"limits": rust_limits},
    "bindings/rust/src/texts.rs": {"texts": rust_rows},
    "bindings/rust/src/lib.rs": {"sets of refusals": rust_sets},
    "docs/REFUSALS.md": {"sets of refusals": paper_sets, "texts": paper_rows, "causes": paper_causes},
    "docs/RULES.md": {"limits": paper_limits, "sets of refusals": paper_sets},
}


def replaced(path, part, lines):
    """The text of a file with this part of it as it is to be."""
    text = (ROOT / path).read_text(encoding="utf-8").split("\n")
    bare = [line.strip(" /*!<>-") for line in text]
    if [bare.count(mark.format(part)) for mark in MARKS] != [1, 1]:
        raise ValueError(f"{path}: the marks of `{part}` do not stand there once")
    begin, end = (bare.index(mark.format(part)) for mark in MARKS)
    return "\n".join([*text[: begin + 1], *lines, *text[end:]])


def check(write):
    """What is wrong with the table, and the parts that are not made of it; with `write` those are written."""
    texts = Texts()
    faults = list(texts.faults())
    if faults:
        return faults
    for path, parts in PARTS.items():
        for part, make in parts.items():
            made = replaced(path, part, make(texts))
            if made != (ROOT / path).read_text(encoding="utf-8"):
                faults += [] if write else [f"{path}: `{part}` is not what `tools/papers --write` makes"]
                if write:
                    (ROOT / path).write_text(made, encoding="utf-8")
    return faults
