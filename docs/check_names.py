#!/usr/bin/env python3
"""Holds what the documents cite against the sources.

    docs/check_names.py              every name, file, section and link; status 1 where one is wrong
    docs/check_names.py --self-test  wrong ones of each kind, made up, are found

A name is what stands in backticks. Where files follow it in parentheses, below crates/, one of them declares it:
`good` (rules/specs/Rows.antt). In a table with a row "file" the name is declared in the file of its column. Any other
name is declared somewhere below crates/ or in the C header, `crate::function` in that crate, and a path leads to a
file. A citation "RULES.md, section 4.2" has its heading, and no file cites a numbered document that the repository does
not have.
"""
import os
import re
import sys
from pathlib import Path

ROOT = Path(__file__).resolve().parent.parent
NAMING = ["docs/RULES.md", "docs/STATEMENTS.md", "docs/UNIQUE.md", "docs/TRUST.md"]  # every backticked word is a name
MENTIONING = ["README.md", "CONTRIBUTING.md", "docs/REGULATOR.md"]  # commands and other languages stand there too
FOREIGN = {"none", "requires", "read", "write", "libc::read", "libc::write", "pkg-config"}  # not declared here
FOREIGN |= {"kneukelboom_widen", "kneukelboom_check", "link_name"}  # calls without their version, an attribute

SPAN = r"`[^`\n]+`"
FILE = r"[\w/]+\.(?:antt|rt)"
FILES = rf"\(({FILE}(?:,\s+{FILE})*)\)"
CITED = re.compile(rf"((?:{SPAN}(?: \.\.)?(?:,| and)?\s+)+){FILES}")
WORD = re.compile(r"[^\W\d][\w²′⊕<≤-]*")
PATH = re.compile(r"[\w.-]+(?:/[\w.-]+)+")
DISTINCT = re.compile(r"[a-zA-Z]-[a-zA-Z\d]|[a-z]_[a-z]|[a-z][A-Z]")  # near-built, near_reply: hardly another word
SECTION = re.compile(r"RULES\.md,\s+section\s+(\d+(?:\.\d+)?)")
OWN_SECTION = re.compile(r"section\s+(\d+(?:\.\d+)?)")  # in the rules themselves
ELSEWHERE = re.compile(r"\bdocument \d\d\b", re.I)  # a paper that the repository does not have
LINK = re.compile(r"\]\(([^)#:\s]+)(?:#[^)]*)?\)")

DECLARED = {
    ".antt": re.compile(
        r"^\s*(?:(?:abbrev|unfoldable|pub)\s+)*(?:([^\s:(){}]+)\s+:(?=\s|$)|(?:record|data)\s+([^\s{]+))", re.M
    ),
    ".rt": re.compile(
        r"^\s*(?:pub\s+)?(?:(?:extern \"C\"\s+)?(?:fn|struct|enum|const|mod)\s+(\w+)|([A-Z]\w*)(?=[,({]|\s\{))", re.M
    ),
}
IN_HEADER = re.compile(r"^(?:#define |    )(KNEUKELBOOM_\w+)", re.M)


def read(path):
    return path.read_text(encoding="utf-8")


def declared(path):
    """The names that a file declares."""
    text = re.sub(r"(?m)(?:--|//)\s.*$", "", read(path))
    return {one or other for one, other in DECLARED[path.suffix].findall(text)}


def read_sources():
    """The names of each file below crates/, but for the wrong programs."""
    paths = [p for kind in ("antt", "rt") for p in (ROOT / "crates").glob(f"*/*/**/*.{kind}")]
    named = {p.relative_to(ROOT / "crates").as_posix(): p for p in paths}
    return {name: declared(p) for name, p in named.items() if name.split("/")[1] not in ("must-fail", "out")}


class Check:
    """One document, held against the sources."""

    def __init__(self, text, sources, naming):
        self.text, self.sources, self.naming = text, sources, naming
        self.crates = {name.split("/")[0] for name in sources}
        header = set(IN_HEADER.findall(read(ROOT / "include/kneukelboom.h")))
        self.everywhere = set().union(*sources.values()) | self.crates | header | FOREIGN
        self.checked, self.wrong, self.settled = 0, [], set()

    def fault(self, at, what):
        self.wrong.append((self.text.count("\n", 0, at) + 1, what))

    def files(self, cited):
        """The cited files; one without a folder stands beside the one before it."""
        found, folder = [], ""
        for name in re.split(r",\s+", cited):
            found.append(name if "/" in name else folder + name)
            folder = found[-1][: found[-1].rfind("/") + 1]
        return found

    def exist(self, at, files):
        for name in files:
            self.checked += 1
            if name not in self.sources:
                self.fault(at, f"no file crates/{name}")

    def bound(self, at, span, files):
        """A name with files; of an expression, some word is what they declare."""
        self.checked += 1
        self.settled.add(at)
        names = set().union(*(self.sources.get(f, set()) for f in files))
        if "::" in span:
            self.loose(at, span)
        elif not names & set(span.split()):
            self.fault(at, f"`{span}` is not declared in {', '.join(files)}")

    def loose(self, at, span):
        """A name without a file; of an expression, the words that look like no other word."""
        crate, _, function = span.partition("::")
        if function and span not in FOREIGN and (self.naming or crate in self.crates):
            self.checked += 1
            if not any(f.startswith(crate + "/src/") and function in names for f, names in self.sources.items()):
                self.fault(at, f"no function `{span}`")
        if PATH.fullmatch(span) and not span.startswith("target/"):
            self.checked += 1
            here = (ROOT / span).exists() or (ROOT / "crates" / span).exists()
            if not here and not any(f.endswith("/" + span) for f in self.sources):
                self.fault(at, f"no file {span}")
        if function or "/" in span or not (self.naming or WORD.fullmatch(span)):
            return
        for word in WORD.findall(span):
            if DISTINCT.search(word) or (self.naming and word == span):
                self.checked += 1
                if word not in self.everywhere:
                    self.fault(at, f"`{word}` is declared nowhere")

    def run(self):
        for cited in re.finditer(FILES, self.text):
            self.exist(cited.start(), self.files(cited[1]))
        for cited in CITED.finditer(self.text):
            files = self.files(cited[2])
            for span in re.finditer(SPAN, cited[1]):
                self.bound(cited.start(1) + span.start(), span[0][1:-1], files)
        for table in re.finditer(r"(?:^\|.*\n)+", self.text, re.M):
            self.table(table)
        for span in re.finditer(SPAN, self.text):
            if span.start() not in self.settled:
                self.loose(span.start(), span[0][1:-1])
        return self

    def table(self, table):
        """The names of a column with a file stand in it."""
        rows, at = [], table.start()
        for line in table[0].splitlines(keepends=True):
            cells = [(at + m.start(1), m[1]) for m in re.finditer(r"\|([^|\n]*)(?=\|)", line)]
            rows.append(cells)
            at += len(line)
        for row in rows:
            if row[0][1].strip() != "file":
                continue
            for k, (start, cell) in list(enumerate(row))[1:]:
                files = self.files(cell.strip())
                self.exist(start, files)
                for cells in rows:
                    for span in re.finditer(SPAN, cells[k][1]):
                        self.bound(cells[k][0] + span.start(), span[0][1:-1], files)


def sections(text):
    return set(re.findall(r"^#{2,3} (\d+(?:\.\d+)?)", text, re.M))


def wrong_sections(text, known, section=SECTION):
    """How many sections of the rules are cited, and those that they have not; a citation may go over comment lines."""
    cited = section.findall(re.sub(r"\n\s*(?:--|//[!/]?|#|\*)?", " ", text))
    return [s for s in cited if s not in known], len(cited)


def texts():
    """The files of the repository that people read."""
    kinds = {".md", ".antt", ".rt", ".rs", ".h", ".c", ".py", ".toml"}
    for folder, inner, files in os.walk(ROOT):
        inner[:] = [name for name in inner if name not in ("target", "out", ".git")]
        for path in (Path(folder, name) for name in files):
            if path.suffix in kinds:
                yield path, read(path)


def main():
    sources, names, cited, links, wrong = read_sources(), 0, 0, 0, []
    rules, itself = ROOT / "docs/RULES.md", Path(__file__).resolve()
    for name in NAMING + MENTIONING:
        check = Check(read(ROOT / name), sources, name in NAMING).run()
        names += check.checked
        wrong += [f"{name}:{line}: {what}" for line, what in check.wrong]
    known = sections(read(rules))
    for path, text in texts():
        name = path.relative_to(ROOT)
        if path != itself:
            missing, count = wrong_sections(text, known, OWN_SECTION if path == rules else SECTION)
            cited += count
            wrong += [f"{name}: docs/RULES.md has no section {s}" for s in missing]
            wrong += [f"{name}: cites {paper}, which is not here" for paper in ELSEWHERE.findall(text)]
        for link in LINK.findall(text) if path.suffix == ".md" else []:
            links += 1
            if not (path.parent / link).exists():
                wrong.append(f"{name}: no file {link}")
    counted = f"{names} names and files, {cited} sections and {links} links"
    print("\n".join(wrong + [f"names: {counted} cited, {len(wrong)} wrong"]))
    return 1 if wrong else 0


def self_test():
    """Each kind of slip, once, between citations that are right."""
    text = """`good`, `box_good` (rules/specs/Rows.antt), `built-sound` (table_truth/proofs/Sound.antt), `near::near`.
`godo` (rules/specs/Rows.antt)
`good` (rules/specs/Row.antt)
`good` (rules/specs/Tree.antt, Walk.antt)
`near-bulit`, `near-built`
`near::nearer`, `nearr::near`
`KNEUKELBOOM_STACK_MEET`, `KNEUKELBOOM_LINE_A`, `KNEUKELBOOM_LINE_C`
`r ≡ near_repyl ..`, `r ≡ near_reply ..`, `sond`, `docs/check_names.py`, `docs/check_nmaes.py`
| | of |
| NEAR | `near-built` |
| MEET | `meet-bulit` |
| file | demands/proofs/Built.antt |
"""
    found = Check(text, read_sources(), True).run().wrong
    assert [line for line, _ in sorted(found)] == [2, 3, 3, 4, 5, 6, 6, 7, 8, 8, 8, 11], found
    mentioned = Check(text, read_sources(), False).run().wrong
    assert [line for line, _ in sorted(mentioned)] == [2, 3, 3, 4, 5, 6, 8, 11], mentioned
    known = sections("## 4. The walks\n### 4.2 Visits\n")
    assert wrong_sections("RULES.md, section 4.2 and RULES.md,\n-- section 4.9", known) == (["4.9"], 2)
    assert wrong_sections("docs/RULES.md, section 4.", known) == ([], 1)
    assert ELSEWHERE.findall("by Document 07, in the documents 3 and 12") == ["Document 07"]
    print("names: each wrong one that was made up is found")
    return 0


if __name__ == "__main__":
    sys.exit(self_test() if sys.argv[1:] == ["--self-test"] else main())
