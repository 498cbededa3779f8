"""Tests of the pages: every path, section, refusal, test and law that they name must be there.

Run from anywhere: python3 tools/test_pages.py
They need nothing proved and nothing built.
"""

import re
import subprocess
import unittest
from collections.abc import Iterator
from pathlib import Path

ROOT = Path(__file__).resolve().parent.parent
PAGES = {path.name: path.read_text() for path in (ROOT / "README.md", *ROOT.glob("docs/*.md"))}
HEADER = (ROOT / "include" / "hwmp.h").read_text()
TRACKED = subprocess.run(
    ["git", "ls-files"], cwd=ROOT, capture_output=True, text=True, check=True
).stdout.splitlines()

# A citation, 'PROTOCOL' and the titles of one or more sections, in any of the forms in use.
CITATION = re.compile(r"PROTOCOL(?:\.md)?`?,? ('[^']+'(?:(?:,| and|, and|;) '[^']+')*)")

# A path below the repository. CRATE, NAME and 'mine' stand for any name.
PATH = re.compile(r"\b(?:crates|docs|examples|include|tests|tools|benchmarks)/[\w./*-]*[\w*]")
ANY_NAME = re.compile(r"\b(?:CRATE|NAME|mine)\b")

# What rt writes into the folder of a crate, which need not be there.
WRITTEN_BY_RT = re.compile(r"(?<=\w)/out/.*")

# A theorem, which a comment beside its statement names.
THEOREM = re.compile(r"^-- `(\w+)`:", re.MULTILINE)

# What specs define: no field of a record, which an indented 'pub' begins.
DEFINITION = re.compile(r"^(?! +pub ) *(?:\w+ )*(\w+) :", re.MULTILINE)


def unwrapped(text: str) -> str:
    """Returns the text with each comment or paragraph on one line, without comment marks."""
    return re.sub(r"\s*\n[ \t]*(?:--|//[/!]?|#|\*)?[ \t]*", " ", text)


def titles_cited(name: str) -> list[str]:
    """Returns the titles of the sections of the protocol that a file cites."""
    citations = CITATION.findall(unwrapped((ROOT / name).read_text(errors="replace")))
    return re.findall("'([^']+)'", " ".join(citations))


def headings(page: str) -> list[str]:
    return re.findall(r"^##+ (.*)$", PAGES[page], re.MULTILINE)


def cells(page: str) -> Iterator[list[str]]:
    """Returns the cells of each row of each table of a page."""
    for row in re.findall(r"^\|(.*)\|$", PAGES[page], re.MULTILINE):
        yield [cell.strip() for cell in row.split("|")]


def named_answers(page: str) -> set[tuple[str, str]]:
    """Returns the pairs of a number and a name in capitals that begin rows of a page's tables."""
    rows = (row for row in cells(page) if re.fullmatch("`[A-Z_]+`", row[1]))
    return {(row[0], row[1].strip("`")) for row in rows}


def quoted(text: str) -> list[str]:
    return re.findall("`([^`]+)`", text)


def text_of(pattern: str) -> str:
    """Returns the text of all files of the crates whose paths match."""
    return "\n".join(path.read_text() for path in ROOT.glob(f"crates/{pattern}"))


def definitions() -> set[str]:
    """Returns the names that are no laws: of definitions, of functions and of entries for C."""
    functions = re.findall(r"\bfn (\w+)", text_of("*/src/**/*.rt"))
    entries = re.findall(r"\b(hwmp_\w+)\(", HEADER)
    return {*DEFINITION.findall(text_of("*/specs/**/*.antt")), *functions, *entries}


class Names(unittest.TestCase):
    def test_each_path_is_there(self) -> None:
        named = {path for page in PAGES.values() for path in PATH.findall(page)}
        self.assertGreater(len(named), 100)
        for path in sorted(named):
            with self.subTest(path):
                there = WRITTEN_BY_RT.sub("", ANY_NAME.sub("*", path))
                self.assertTrue(any(ROOT.glob(there)))

    def test_each_section_of_the_protocol_is_there(self) -> None:
        sections = set(headings("PROTOCOL.md"))
        cited = [(name, title) for name in TRACKED for title in titles_cited(name)]
        self.assertGreater(len(cited), 50)
        for name, title in cited:
            with self.subTest(name):
                self.assertIn(title, sections)

    def test_each_law_and_theorem_is_there(self) -> None:
        quotes = quoted(PAGES["PROMISES.md"])
        names = {name for name in quotes if re.fullmatch("[a-z0-9]+(_[a-z0-9]+)+", name)}
        theorems = set(THEOREM.findall(text_of("theorems/specs/Statements.antt")))
        self.assertGreater(len(names & theorems), 20)
        laws = names - definitions() | theorems
        self.assertGreater(len(laws), 50)
        proved = text_of("*/proofs/*.antt")
        for law in sorted(laws):
            with self.subTest(law):
                self.assertRegex(proved, rf"(?m)^\s*(?:pub )?{law} :")


class Refusals(unittest.TestCase):
    """The answers of enum hwmp_answer, and what the pages call them."""

    def setUp(self) -> None:
        (body,) = re.findall(r"^enum hwmp_answer \{(.*?)^\};", HEADER, re.MULTILINE | re.DOTALL)
        found = re.findall(r"^    HWMP_(\w+) = ([0-9]+),?$", body, re.MULTILINE)
        self.answers = {(number, name) for name, number in found}
        self.assertGreater(len(self.answers), 20)

    def test_the_protocol_has_each_by_its_number_and_name(self) -> None:
        self.assertEqual(named_answers("PROTOCOL.md"), self.answers)

    def test_the_firmware_guide_has_each_refusal(self) -> None:
        refusals = {(n, f"HWMP_{name}") for n, name in self.answers if 0 < int(n) < 41}
        self.assertEqual(named_answers("FIRMWARE.md"), refusals)

    def test_the_page_on_tests_has_each_with_tests_that_are_there(self) -> None:
        tests_dir = ROOT / "tests" / "tests"
        sources = {path: path.read_text() for path in tests_dir.rglob("*.rs")}
        functions = set(re.findall(r"\bfn (\w+)", "\n".join(sources.values())))
        rows = [row for row in cells("TESTING.md") if re.match("[0-9]+ `HWMP_", row[0])]
        named = {tuple(row[0].replace("`HWMP_", "").strip("`").split()) for row in rows}
        self.assertEqual(named, self.answers - {("0", "ACCEPTED")})
        for answer, tests, _, edits in rows:
            with self.subTest(answer):
                files = [name for name in quoted(tests) if name.endswith(".rs")]
                self.assertTrue(files)
                self.assertLessEqual({tests_dir / name for name in files}, set(sources))
                self.assertLessEqual(set(quoted(tests)) - set(files), functions)
                for crate, _, edit in (name.partition("/") for name in quoted(edits)):
                    path = ROOT / "crates" / crate / "must-fail" / f"{edit}.edit"
                    self.assertTrue(path.is_file())


class Version(unittest.TestCase):
    def test_the_newest_change_is_that_of_the_header(self) -> None:
        (version,) = re.findall(r'^#define HWMP_VERSION "(.*)"$', HEADER, re.MULTILINE)
        newest = re.search(r"[0-9]+\.[0-9]+\.[0-9]+", "\n".join(headings("CHANGES.md")))
        self.assertIsNotNone(newest)
        self.assertEqual(newest[0], version)


if __name__ == "__main__":
    unittest.main()
