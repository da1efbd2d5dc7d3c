#!/usr/bin/env python3
"""Counts the places in crates/*/src/ that are written as the older language asked for, by the points of docs/DESIGN-PASS.md.

Without a word: a table of counts by point and pattern. With a number: each place of that point. Proofs (point 8) are counted in lines
and in answers; a pattern says what it looks for, not that each place is wrong."""
import pathlib
import re
import sys

TOP = pathlib.Path(__file__).resolve().parent.parent
# Names of cases that say that there is no value, and why or not.
MISSING = {"Nothing", "None", "Outside", "Undefined", "Unencodable", "Unreadable", "Wrong", "Unknown", "Impossible", "Refused",
           "Fault", "Faulty", "Failed", "ImageLength", "NoSize", "NoCommand"}
# Names of cases that say that all is well.
WELL = {"None", "Fine", "Passes", "Done", "Whole", "Ready", "Nothing"}
BY_LINE = [
    (1, "a flag that is handed in or out beside what it speaks of", r"\b(is_written|more|ended): bool\b"),
    (1, "a constant below 16, as for a kind, a stack or a place", r"^pub const [A-Z_]+: (u8|u16|usize) = (\d|1\d);"),
    (1, "a number that stands for none", r"\b(== 16|!= 16|== 255|return 255|else \{ 255|== 0xFFFF|\b256u16)\b"),
    (3, "a loop that counts by hand", r"^\s*while\b"),
    (3, "a count by hand", r"^\s*\w+ (\+=|-=) 1;"),
    (4, "true or false case by case", r"=> (true|false),"),
    (4, "a number case by case", r"=> \d+,"),
    (4, "two bytes put together or taken apart by hand",
     r"(\* 0?x?(256|100)\b.*\bas u16|as u16 \* 256|% 256\) as u8|/ 256\) as u8|n / weight % 256)"),
    (4, "a character looked at by its number", r"b'0' \+|b'A' \+|b'A' - 10"),
    (4, "bytes compared or copied by hand", r"\bis\(\w+, b\"|slices::(copy|find)|\[at \+ i\] =|\[i\] = |!= name\[i\]"),
    (5, "Timings of a lent table", r"\bTimings table|\btable: &\[u8; 256\]"),
    (5, "Halves of a page and a fixed half", r"\bHalves page|page: &'a \[u8\]"),
    (5, "IsImage of an image", r"\bIsImage image"),
    (5, "Coherent store", r"\bCoherent image"),
    (5, "a state of 280 bytes", r"length state\.(now|old) ≡ 280"),
    (5, "bytes, stack, control and flags side by side", r"stack: &mut \[u16; 6\]"),
    (5, "a body's entries", r"\bDue body|is_body body"),
    (6, "a buffer with a length beside", r"^    pub letters: \[u8; \d+\],"),
    (6, "an array of several parts by offsets", r"\[u16; 8194\]|\[usize; PLACES\]"),
    (6, "a list of indices", r"\[u32; (8192|40992)\]"),
    (7, "a choice of what to run by a number", r"if \w+\.kind == \d|match \w+\.kind"),
]


def sources():
    for path in sorted(TOP.glob("crates/*/src/**/*.rt")):
        yield path, path.read_text().split("\n")


def enums():
    """The repository's enums: name, place, cases with whether they have a value."""
    for path, lines in sources():
        for number, line in enumerate(lines):
            found = re.match(r"(?:pub )?enum (\w+) \{", line)
            if not found:
                continue
            cases, depth = [], 0
            for later in lines[number + 1:]:
                if later.startswith("}"):
                    break
                case = re.match(r"    (\w+) ?([({,])", later)
                if case:
                    cases.append((case.group(1), case.group(2) != ","))
            yield found.group(1), path, number + 1, cases


def optional(cases):
    """Whether an enum's cases are a value, or nothing or why not: the shape of Option or Result."""
    names = {name for name, _ in cases}
    if len(cases) == 2:
        return bool(names & (MISSING | WELL))
    values = [name for name, _ in cases if name not in MISSING]
    return bool(names & WELL) and bool(names & MISSING) or (len(values) == 1 and bool(names & MISSING))


def functions():
    """The functions, each with its place and its text from the name's line to the closing brace, clauses left out."""
    for path, lines in sources():
        for number, line in enumerate(lines):
            found = re.match(r"( *)(?:pub )?(?:const )?(?:extern \"C\" )?fn (\w+)", line)
            if not found:
                continue
            end = found.group(1) + "}"
            body = [line]
            for later in lines[number + 1:]:
                body.append(later)
                if later == end:
                    break
            text, depth = [], 0
            for part in body:
                part = part.split("//")[0].rstrip()
                if depth or re.match(r"\s*(requires|ensures)\b", part):
                    depth += part.count("{") - part.count("}")
                elif part:
                    text.append(part)
            yield path, number + 1, found.group(2), text


def twins():
    """Groups of functions of five lines or more that are the same but for names, types and numbers."""
    groups = {}
    for path, number, name, text in functions():
        if len(text) < 5:
            continue
        known = {}
        shape = re.sub(r"\b[A-Za-z_]\w*\b|\b\d\w*\b", lambda m: m.group(0) if m.group(0) in ("if", "else", "match", "let", "mut", "return", "for",
                       "while", "in", "fn", "pub", "as") else known.setdefault(m.group(0), f"#{len(known)}"), "\n".join(text))
        groups.setdefault(shape, []).append((path, number, name))
    return [group for group in groups.values() if len(group) > 1]


def places():
    """Point, pattern, place and text."""
    shaped = {}
    for name, path, number, cases in enums():
        if optional(cases):
            shaped[name] = (path, number)
            yield 1, "an enum of the shape of Option or Result", path, number, f"enum {name}: {', '.join(n for n, _ in cases)}"
    for group in twins():
        for path, number, name in group:
            yield 2, "a function like another but for names, types and numbers", path, number, f"{name}, with {', '.join(n for _, _, n in group if n != name)}"
    uses = re.compile(r"\b(" + "|".join(sorted(shaped)) + r")::") if shaped else None
    for path, lines in sources():
        for number, line in enumerate(lines, 1):
            text = line.split("//")[0].rstrip()
            if uses and uses.search(text) and not text.startswith("use "):
                yield 1, "a case of such an enum", path, number, text.strip()
            for point, pattern, search in BY_LINE:
                if re.search(search, text):
                    yield point, pattern, path, number, text.strip()
    for path in sorted(TOP.glob("crates/*/proofs/**/Answers.antt")):
        for number, line in enumerate(path.read_text().split("\n"), 1):
            if line.startswith("pub ") and " : goal." in line:
                yield 8, "an answer to a goal", path, number, line
    for path in sorted(TOP.glob("crates/*/proofs/**/*.antt")):
        for number, line in enumerate(path.read_text().split("\n"), 1):
            if line and not line.startswith(("use ", "--")):
                yield 8, "a line of proofs", path, number, line


def main():
    found = list(places())
    if len(sys.argv) > 1:
        for point, pattern, path, number, text in found:
            if point == int(sys.argv[1]):
                print(f"{path.relative_to(TOP)}:{number}: {pattern}: {text}")
        return
    counts = {}
    for point, pattern, *_ in found:
        counts[point, pattern] = counts.get((point, pattern), 0) + 1
    for (point, pattern), count in sorted(counts.items()):
        print(f"{point}  {count:5}  {pattern}")


if __name__ == "__main__":
    main()
