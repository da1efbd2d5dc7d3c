#!/usr/bin/env python3
"""Reports names in README.md and docs/*.md that stand nowhere in crates/, tools/ or tests/. docs/PORT.md and docs/DESIGN-PASS.md name what is gone, and are left out.

Names are words in backticks (`decodeAt`, `Rom.romAt`, `machine::run::run`) and, ticked or not, paths (isa/specs/Map). Code fences and what
has spaces in backticks (commands, printed lines) are passed over, and comments do not count. In a name of two parts the first names the
file of the second, which after :: is a function defined there; in a note (`romAt`, isa/specs/Rom) the path does. A claim that says which
proof proves it must name a theorem of that file. Exits with 1 if any.
"""
import fnmatch
import re
import sys
from pathlib import Path

ROOT = Path(__file__).resolve().parent.parent
# words in backticks that are no names of this repository
LITERALS = set('rt dac8208d650f15bf libexports.a rattle-kit-13f rattle-kit-5b ensures requires opt-level pump.hex marks.hex crates/NAME/stdout'.split())
WORD = re.compile(r"[A-Za-z_][\w'-]*")
TICKED = re.compile(r'`([^`]+)`')
NAME = re.compile(r"(?![0-9A-F]+h?$)[A-Za-z_.][\w.:/*'-]*(\{[\w, ]+\})?$")
PATH = re.compile(r'(?<![\w/.])(?:crates/)?(?:\w+/)?(?:specs|proofs|src|must-fail)/[\w/]*\w')
PROVED = re.compile(r'-- proved by ([\w-]+), proofs/(\w+)')
NOTE = re.compile(r'((?:`[^`]+`(?:, | and ))+)(\w+/(?:specs|src)/\w+)')


def read_sources():
    """The words of each file by its path without suffix, and all paths, with and without suffix."""
    words, paths = {}, set()
    for path in (p.relative_to(ROOT) for p in ROOT.rglob('*') if {'target', '.git'}.isdisjoint(p.relative_to(ROOT).parts) and p.is_file()):
        paths |= {f'/{p}' for p in (path, path.with_suffix(''), *path.parents)}
        if path.parts[0] in ('crates', 'tools', 'tests') and path.suffix in ('.antt', '.rt', '.rs', '.py', '.edit'):
            text = re.sub(r'(?m)^\s*(--|//).*$', '', (ROOT / path).read_text())
            words[str(path.with_suffix(''))] = set(WORD.findall(text)) | set(re.findall(r'fn \w+', text))
    return words, paths


def is_known(name, words, paths):
    """Whether a name stands somewhere: as a path, as a member in a file of its owner's name, or as a word."""
    if name in LITERALS or 'target/' in name or fnmatch.filter(paths, '*/' + name.rstrip('/')):
        return True
    *_, owner, member = ['', *re.split(r'::|\.', name.lstrip('.'))]
    files = [ws for p, ws in words.items() if Path(p).name == owner or '::' in name and owner[:1].isupper() and owner in ws]
    files = files or [ws for p, ws in words.items() if not owner or owner in (ws if owner[0].isupper() else Path(p).parts)]
    members = [f'fn {m}' if '::' in name and m[0].islower() else m for m in WORD.findall(member)]
    return '/' not in name and all(any(m in f for f in files) for m in members)


def missing_proofs():
    """The claims whose line names no theorem."""
    for page in sorted(ROOT.glob('crates/*/specs/*.antt')):
        for name, file in PROVED.findall(page.read_text()):
            proof = page.parent.parent / 'proofs' / f'{file}.antt'
            if not proof.exists() or not re.search(rf'(?m)^\s*pub {name} :', proof.read_text()):
                yield f'{page.relative_to(ROOT)}: proved by {name}, proofs/{file}'


def main():
    (words, paths), wrong, fenced = read_sources(), [], False
    for page in [ROOT / 'README.md', *sorted(p for p in ROOT.glob('docs/*.md') if p.name not in ('PORT.md', 'DESIGN-PASS.md'))]:
        for number, line in enumerate(page.read_text().splitlines(), 1):
            fenced ^= line.startswith('```')
            ticked = [re.sub(r'\(.*\)$', '', t) for t in TICKED.findall(line)]
            names = [] if fenced else [t for t in ticked if NAME.match(t)] + PATH.findall(line)
            here = [n for n in dict.fromkeys(names) if not is_known(n, words, paths)]
            here += [f'{n} in {f}' for ns, f in NOTE.findall(line) for n in TICKED.findall(ns) if n not in words.get('crates/' + f, [n])]
            wrong += [f'{page.relative_to(ROOT)}:{number}: {n}' for n in here]
    wrong += missing_proofs()
    print('\n'.join(wrong) or 'all names stand somewhere')
    sys.exit(bool(wrong))


main()
