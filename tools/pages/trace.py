#!/usr/bin/env python3
"""Holds docs/TRACE.md against the documents and the crates, and in the other pages what can be held likewise.

    python3 tools/pages/trace.py [FOLDER]

FOLDER has documents 01 and 02 (files that begin with 01 and 02), which this repository does not have. With it: the quotations of a
section, read in order, are the document's section word for word, no section is left out, and what DECISIONS quotes stands in one of
them. Always: each name of the column "Said by" is defined in specs or proofs, each function of "Code" in its file, each edit of "Edit"
stands in a must-fail folder or in tools/edits; and each `File.name` of the other pages exists. Exits with 0 if nothing is wrong."""
import re
import sys
from pathlib import Path

TOP = Path(__file__).resolve().parents[2]
TICKS = re.compile(r'`([^`]*)`')
NAME = re.compile(r"[A-Za-z][A-Za-z0-9ℕ'_-]*$")
DOTTED = re.compile(r"([A-Z][A-Za-z0-9]*)\.([A-Za-z][A-Za-z0-9ℕ'_-]*)$")
DEFINED = re.compile(r"^ *(?:(?:abbrev|unfoldable|pub|record|data) )*([A-Za-z][A-Za-z0-9ℕ'_-]*)(?: .*)? ?:(?: |$)")
CODED = re.compile(r'^ *(?:pub )?(?:extern "C" )?(?:fn|enum|struct|const) ([A-Za-z0-9_]+)', re.M)
OTHERS = ['PROMISES', 'DECISIONS', 'AUDIT', 'ARCHITECTURE', 'FORMAT', 'RULES']


def definitions():
    """The names that the files of specs and proofs define, by the file's name."""
    found = {}
    for path in [*TOP.glob('crates/*/specs/**/*.antt'), *TOP.glob('crates/*/proofs/*.antt')]:
        lines = map(DEFINED.match, path.read_text().splitlines())
        found.setdefault(path.stem, set()).update(match.group(1) for match in lines if match)
    return found


def functions():
    """The functions and types of each file of code, by crate and file."""
    return {(path.parts[-3], path.stem): set(CODED.findall(path.read_text())) for path in TOP.glob('crates/*/src/*.rt')}


def edits():
    """Crate and name of each edit that must be refused."""
    found = {(path.parts[-3], path.stem) for path in TOP.glob('crates/*/must-fail/*.edit')}
    for path in TOP.glob('tools/edits/**/*.edit'):
        found.update((part, path.stem) for part in path.relative_to(TOP).parts[2:-1])
    return found


def flat(text):
    """A text's words: no line breaks, no list marks, no head of a table."""
    text = re.sub(r'^\|.*\n\|---.*$', '', text, flags=re.M)
    return re.sub(r'\s+', ' ', re.sub(r'^- ', '', text, flags=re.M))


def sections(number, text):
    """A document's sections, by the name that TRACE has for them."""
    if number == '01':
        parts = re.split(r'^## (.*)$', text, flags=re.M)
        return {name: flat(body) for name, body in zip(parts[1::2], parts[2::2])}
    parts = re.split(r'^(?=\*\*(C-[0-9]+)\.)', text, flags=re.M)
    opening = re.sub(r'^#.*$', '', parts[0], flags=re.M)
    return {'its opening': flat(opening), **{name: flat(body) for name, body in zip(parts[1::2], parts[2::2])}}


def cells(line):
    return [part.strip() for part in re.split(r'(?<!\\)\|', line.strip()[1:-1])]


def rows(text):
    """Each row with its line, the section that it stands in, and its cells by the table's head."""
    section, head = '', []
    for n, line in enumerate(text.splitlines(), 1):
        if line.startswith('## '):
            section = line[3:]
        if not line.startswith('|'):
            head = []
        elif not head:
            head = cells(line)
        elif not line.startswith('|---'):
            yield n, section, dict(zip(head, cells(line)))


class Page:
    def __init__(self):
        self.wrong = 0
        self.defined = definitions()
        self.anywhere = set().union(*self.defined.values(), self.defined)
        self.coded = functions()
        self.edits = edits()
        self.quoted = {}

    def say(self, n, what, page='TRACE'):
        print(f'docs/{page}.md:{n}: {what}')
        self.wrong += 1

    def scope(self, owner):
        """The names beside which a name may stand: those of the file, or of the file that has the record."""
        return set().union(*(names for file, names in self.defined.items() if file == owner or owner in names))

    def said(self, n, cell):
        """`File.name`, or a record and its field; a name without a file stands in the file named before it, or is a function's."""
        here = self.anywhere
        called = set().union(*self.coded.values())
        for token in TICKS.findall(cell):
            dotted = DOTTED.match(token)
            if dotted:
                here = self.scope(dotted.group(1))
            name = dotted.group(2) if dotted else token
            if (NAME.match(name) or '.' in name or '::' in name) and name not in here and (dotted or name not in called):
                self.say(n, f'no definition {token}')

    def code(self, n, cell):
        """`crate::file::function` or `crate::function`; a name without a file stands in the file or crate named before it."""
        here = []
        for token in TICKS.findall(cell):
            parts = token.split('::')
            if len(parts) > 1:
                here = [key for key in self.coded if key[0] == parts[0] and parts[1] in (key[1], parts[-1])]
            if not any(parts[-1] in self.coded[key] for key in here):
                self.say(n, f'no function {token}')

    def edit(self, n, cell):
        for token in TICKS.findall(cell):
            if tuple(token.split(' ')) not in self.edits:
                self.say(n, f'no edit {token}')

    def quotation(self, n, section, cell):
        """What stands between the first quotation mark of the cell and the last."""
        number = '02' if section.startswith('Document 02') else '01'
        name = section[len('Document 02, '):].split(':')[0] if number == '02' else section
        said = re.search(r'"(.*)"', cell)
        if said:
            self.quoted.setdefault((number, name), []).append((n, said.group(1).replace('\\|', '|')))

    def hold(self, number, text):
        """The rows of each section against the document's: every quotation behind the one before it, and no word between."""
        for name, body in sections(number, text).items():
            at, last = 0, 0
            for n, said in [*self.quoted.get((number, name), []), (0, '')]:
                last, before = n or last, at
                at = body.find(said, at) if said else len(body)
                if at < 0:
                    self.say(n, f'not in document {number}, or not in this order: {said}')
                    at = before
                    continue
                if re.search('[A-Za-z]{2}', body[before:at]):
                    self.say(n or last, f'document {number}, "{name}", in no row: {body[before:at].strip()}')
                at += len(said)


    def names(self, page, text):
        """Each `File.name` of another page."""
        for n, line in enumerate(text.splitlines(), 1):
            for dotted in filter(None, map(DOTTED.match, TICKS.findall(line))):
                if dotted.group(2) not in self.scope(dotted.group(1)) and dotted.group(0) != 'File.name':
                    self.say(n, f'no definition {dotted.group(0)}', page)

    def decided(self, text, documents):
        """What DECISIONS quotes above an entry; two points stand for what is left out."""
        for block in re.finditer(r'(?:^> .*\n)+', text, re.M):
            lines = re.sub(r'^> ', '', block.group(0), flags=re.M)
            for said in re.findall(r'"(.*?)"(?= \(|;|$)', flat(lines).strip()):
                for part in re.split(r' ?\.\. ?', said):
                    if part not in documents:
                        self.say(text.count('\n', 0, block.start()) + 1, f'in no document: {part}', 'DECISIONS')


def main():
    page = Page()
    count = 0
    for n, section, row in rows((TOP / 'docs/TRACE.md').read_text()):
        count += 'No.' in row
        page.quotation(n, section, row.get('Document 01', row.get('Document 02', '')))
        page.said(n, row.get('Said by', ''))
        page.code(n, row.get('Code', ''))
        page.edit(n, row.get('Edit', ''))
    for name in OTHERS:
        page.names(name, (TOP / f'docs/{name}.md').read_text())
    for folder in sys.argv[1:]:
        documents = {path.name[:2]: path.read_text() for path in sorted(Path(folder).glob('0[12]*'))}
        for number, text in documents.items():
            page.hold(number, text)
        page.decided((TOP / 'docs/DECISIONS.md').read_text(), ' '.join(map(flat, documents.values())))
    print(f'{count} rows, {page.wrong} wrong')
    sys.exit(page.wrong > 0)


if __name__ == '__main__':
    main()
