#!/usr/bin/env python3
"""Reports lines of the pages (*.md) with more than 100 columns. Rows of tables and code fences may be longer. Exits with 1 if any."""
import subprocess
import sys
from pathlib import Path

ROOT = Path(__file__).resolve().parent.parent
COLUMNS = 100


def long_lines(page):
    """The numbers of a page's lines that are too long."""
    fenced = False
    for number, line in enumerate((ROOT / page).read_text().splitlines(), 1):
        fenced ^= line.startswith('```')
        if len(line) > COLUMNS and not fenced and not line.startswith('|'):
            yield number


def main():
    pages = subprocess.check_output(['git', 'ls-files', '*.md'], cwd=ROOT, text=True).split()
    wrong = [f'{page}:{number}: more than {COLUMNS} columns' for page in pages for number in long_lines(page)]
    print(*wrong, sep='\n', end='\n' if wrong else '')
    sys.exit(bool(wrong))


if __name__ == '__main__':
    main()
