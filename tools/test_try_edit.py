"""Tests of try_edit, and of docs/TRAINING.md, which shows what it prints.

Run from anywhere: python3 tools/test_try_edit.py
The tests need rt, but nothing proved and no program built.
"""

import re
import shutil
import subprocess
import sys
import tempfile
import textwrap
import unittest
from pathlib import Path
from unittest.mock import patch

sys.dont_write_bytecode = True  # set first, so that nothing is written next to the tools

import trying
from loading import load_tool

try_edit = load_tool("try_edit")
Complaint = try_edit.Complaint

ROOT = try_edit.ROOT
GUIDE = (ROOT / "docs" / "TRAINING.md").read_text()

# What is said of each error before it is run, in this order.
PARTS = ["The rule.", "The error.", "The story.", "Predict.", "Run it."]


def section(title: str) -> str:
    """Returns the text under a heading of the second level."""
    (found,) = re.findall(rf"^## {title}$(.*?)(?=^## |\Z)", GUIDE, re.MULTILINE | re.DOTALL)
    return found


def parts_of(title: str) -> list[str]:
    """Returns the numbered parts of a section, one for each error."""
    text = section(title)
    return re.findall(r"^### ([0-9]\..*?)(?=^### |\Z)", text, re.MULTILINE | re.DOTALL)


ERRORS = re.findall(r"^## ([0-9]\..*?)(?=^## )", GUIDE, re.MULTILINE | re.DOTALL)
ANSWERS = parts_of("Answers")
DEFINITIONS = parts_of("Definitions and proofs")


def call(*arguments: object) -> tuple[int, str, str]:
    """Runs the tool as a trainee would: its exit status, output and complaint."""
    command = [sys.executable, ROOT / "tools" / "try_edit", *arguments]
    done = subprocess.run(command, cwd=ROOT, capture_output=True, text=True, check=False)
    return done.returncode, done.stdout, done.stderr


def block(kind: str, text: str) -> str:
    """The one code block of this kind."""
    (found,) = re.findall(f"^```{kind}\n(.*?)^```$", text, re.MULTILINE | re.DOTALL)
    return found


class Guide(unittest.TestCase):
    def test_each_error_has_its_parts_answers_and_definitions(self) -> None:
        titles = [error.partition("\n")[0] for error in ERRORS]
        self.assertEqual([title[0] for title in titles], list("123456"))
        for parts in (ANSWERS, DEFINITIONS):
            self.assertEqual([part.partition("\n")[0] for part in parts], titles)
        for error in ERRORS:
            with self.subTest(error[0]):
                self.assertEqual(re.findall(r"^\*\*(.*?)\*\*", error, re.MULTILINE), PARTS)

    def test_each_question_is_answered(self) -> None:
        for error, answer in zip(ERRORS, ANSWERS):
            with self.subTest(error[0]):
                asked = re.findall(r"^([0-9])\. ", error.partition("\n")[2], re.MULTILINE)
                self.assertGreater(len(asked), 1)
                answered = answer.partition("**The answers.**")[2].partition("**Does it loop?**")[0]
                self.assertEqual(re.findall(r"\(([0-9])\)", answered), asked)

    def test_each_run_is_as_shown(self) -> None:
        for error, answer in zip(ERRORS, ANSWERS):
            with self.subTest(error[0]):
                command, _, shown = block("diff", answer).partition("\n")
                prompt, tool, *arguments = command.split()
                self.assertEqual((prompt, tool), ("$", "tools/try_edit"))
                self.assertIn(f"\n    {tool} {' '.join(arguments)}\n", error)
                status, output, complaint = call(*arguments)
                self.assertEqual((status, complaint), (0, ""))
                # The guide says that it leaves these out.
                set_up = re.compile("^  (point|link) .*\n", re.MULTILINE)
                self.assertEqual(shown, set_up.sub("", output))

    def test_each_definition_stands_in_a_file_that_is_named(self) -> None:
        for part in DEFINITIONS:
            with self.subTest(part[0]):
                named = re.findall(r"`(crates/\w+/specs/\w+\.antt)`", part)
                text = "\n".join((ROOT / name).read_text() for name in named)
                for definition in block("antt", part).strip().split("\n\n"):
                    self.assertIn(f"\n{definition}\n", text)

    def test_each_computed_loop_is_in_the_list(self) -> None:
        runs = (ROOT / "crates" / "theorems" / "specs" / "Runs.antt").read_text()
        (listed,) = re.findall(r"^counterexamples = (.*)$", runs, re.MULTILINE)
        loops = [re.findall(r"Does it loop\?\*\* (No|Yes: `\w+`)\.", part) for part in ANSWERS]
        self.assertEqual([len(loop) for loop in loops], [1] * 6)
        named = [loop.removeprefix("Yes: ").strip("`") for (loop,) in loops if loop != "No"]
        self.assertEqual(len(named), 4)
        self.assertLessEqual(set(named), set(listed.split(" ∷ ")))

    def test_each_script_is_run(self) -> None:
        for script in (ROOT / "examples" / "training").iterdir():
            self.assertRegex(GUIDE, rf"\$ tools/try_edit \S+ examples/training/{script.name}\n")


class OwnEdit(unittest.TestCase):
    """The edit and the script that the guide shows for an edit of one's own, and bad edits."""

    def setUp(self) -> None:
        self.text = section("An edit of your own")
        blocks = re.findall(r"(?:^    .*\n)+", self.text, re.MULTILINE)
        self.edit, self.script, _ = map(textwrap.dedent, blocks)

    def complaint_about(self, name: str, lines: str) -> str:
        """Returns the complaint about a file with these lines below a root with one crate."""
        with tempfile.TemporaryDirectory() as directory:
            root = Path(directory).resolve()
            shutil.copytree(ROOT / "crates" / "answering", root / "crates" / "answering")
            path = root / name
            path.parent.mkdir(parents=True, exist_ok=True)
            path.write_text(lines)
            with patch.object(try_edit, "ROOT", root), self.assertRaises(Complaint) as raised:
                try_edit.read_edit(str(path))
            return str(raised.exception)

    def test_it_does_what_the_answer_says(self) -> None:
        edit = try_edit.Edit("answering", list(try_edit.read_replacements(self.edit)))
        script = try_edit.benchscript.read_script("mine.bench", self.script)
        shown = "\n".join(try_edit.run_shown(edit, try_edit.ScriptRun(script)))
        self.assertRegex(shown, r"(?m)^- deliver from-1 0 +refused 24:")
        self.assertRegex(shown, r"(?m)^\+ deliver from-1 0 +accepted")
        self.assertRegex(shown, r"(?m)^- walk 0 2 +stops after 0 hops \(41")
        self.assertRegex(shown, r"(?m)^\+ walk 0 2 +stops after 1 hop \(41")

    def test_each_complaint_is_one_that_the_tool_makes(self) -> None:
        place, old = "crates/answering/must-fail/mine.edit", "if !r.is_active(clock) {"
        made = [
            self.complaint_about("mine.edit", self.edit),
            self.complaint_about(place.removesuffix(".edit"), self.edit),
            self.complaint_about("crates/answer/must-fail/mine.edit", self.edit),
            self.complaint_about(place, self.edit.replace("src/lib.rt", "src/answer.rt")),
            self.complaint_about(place, self.edit.replace("src/lib.rt", "specs/Lib.antt")),
            self.complaint_about(place, self.edit.replace(old, "if r.is_inactive(clock) {")),
            self.complaint_about(place, self.edit.replace(old, old.replace(" ", "  "))),
            self.complaint_about(place, self.edit.replace(old, "if flags::has_do(q) {")),
            f"with the edit {try_edit.DoesNotCompile('')}",
        ]
        with patch.object(try_edit, "answers_with", return_value=[]):
            with self.assertRaises(Complaint) as raised:
                try_edit.run_shown(None, None)
        made.append(str(raised.exception))
        told = re.findall(r"^\| `(.*?)` \|", self.text, re.MULTILINE)
        self.assertEqual(len(told), len(made))
        for complaint, whole in zip(told, made):
            self.assertIn(complaint, whole)


class Edits(unittest.TestCase):
    """Edits of a crate under another root, so that no bad one stands among the good."""

    def setUp(self) -> None:
        directory = tempfile.TemporaryDirectory()
        self.addCleanup(directory.cleanup)
        self.root = Path(directory.name).resolve()
        self.crate = self.root / "crates" / "some"
        for part in ("src", "specs", "must-fail"):
            (self.crate / part).mkdir(parents=True)
        (self.crate / "src" / "lib.rt").write_text("fn one() {}\n    fn two() {}\nfn two() {}\n")
        (self.crate / "specs" / "Lib.antt").write_text("one\n")
        self.edit = self.crate / "must-fail" / "some.edit"

    def apply(self, lines: str) -> list[str]:
        """Applies an edit with these lines to the crate, and answers what is shown of it."""
        self.edit.write_text(lines)
        with patch.object(try_edit, "ROOT", self.root):
            edit = try_edit.read_edit(str(self.edit))
        try_edit.apply_edit(edit, self.root)
        return list(try_edit.edit_shown(edit))

    def assert_complaint(self, lines: str, complaint: str) -> None:
        with self.assertRaises(try_edit.Complaint) as raised:
            self.apply(lines)
        self.assertEqual((raised.exception.status, str(raised.exception)), (2, complaint))

    def test_several_replacements_of_exact_texts(self) -> None:
        shown = self.apply("# why\nfile: src/lib.rt\nold: one\nnew: 1\nold:     fn two\nnew:\n")
        self.assertEqual(shown, ["crates/some/src/lib.rt", "- one", "+ 1", "- fn two", "+ "])
        edited = (self.crate / "src" / "lib.rt").read_text()
        self.assertEqual(edited, "fn 1() {}\n() {}\nfn two() {}\n")

    def test_no_pair(self) -> None:
        complaint = f"{self.edit} has no pair of lines 'old: TEXT' and 'new: TEXT'"
        self.assert_complaint("# why\nfile: src/lib.rt\nold: one\n", complaint)

    def test_line_of_no_edit(self) -> None:
        forms = "write '# COMMENT', 'file: FILE', 'old: TEXT' or 'new: TEXT'"
        for line in ("old:one", "why", "file:src/lib.rt", " new: 1"):
            complaint = f"{self.edit}:2: '{line}' is no line of an edit; {forms}"
            self.assert_complaint(f"file: src/lib.rt\n{line}\nold: one\nnew: 1\n", complaint)

    def test_no_file_line(self) -> None:
        complaint = f"{self.edit}: a line 'file: src/FILE.rt' must stand above the first 'old:'"
        self.assert_complaint("old: one\nnew: 1\n", complaint)

    def test_new_without_old(self) -> None:
        complaint = f"{self.edit}: a line 'old: TEXT' must stand above each 'new:'"
        self.assert_complaint("file: src/lib.rt\nnew: 1\n", complaint)

    def test_text_that_the_file_does_not_have(self) -> None:
        complaint = (
            "crates/some/src/lib.rt does not have the 'old:' text: "
            "copy a part of one line exactly\nfn three"
        )
        self.assert_complaint("file: src/lib.rt\nold: fn three\nnew: x\n", complaint)

    def test_text_with_other_spaces(self) -> None:
        complaint = (
            "crates/some/src/lib.rt does not have the 'old:' text: "
            "its spaces or line ends differ from those in the file\nfn  one"
        )
        self.assert_complaint("file: src/lib.rt\nold: fn  one\nnew: x\n", complaint)

    def test_text_that_the_file_has_twice(self) -> None:
        complaint = (
            "crates/some/src/lib.rt has the 'old:' text 2 times: "
            "add more of its line, so that it stands there once\ntwo"
        )
        self.assert_complaint("file: src/lib.rt\nold: two\nnew: x\n", complaint)

    def test_text_that_an_earlier_replacement_brings_in(self) -> None:
        complaint = (
            "crates/some/src/lib.rt has the 'old:' text 2 times: "
            "add more of its line, so that it stands there once\nfour"
        )
        pairs = "old: one\nnew: four four\nold: four\nnew: x\n"
        self.assert_complaint(f"file: src/lib.rt\n{pairs}", complaint)

    def test_definition(self) -> None:
        complaint = f"{self.edit} changes specs/Lib.antt; only an edit of code (src/) changes a run"
        self.assert_complaint("file: specs/Lib.antt\nold: one\nnew: x\n", complaint)

    def test_path_from_the_root(self) -> None:
        complaint = f"{self.edit}: 'file:' names a path within the crate, like src/lib.rt"
        self.assert_complaint("file: crates/some/src/lib.rt\nold: one\nnew: x\n", complaint)

    def test_missing_file(self) -> None:
        complaint = f"{self.edit}: crate some has no file src/other.rt; it has src/lib.rt"
        self.assert_complaint("file: src/other.rt\nold: one\nnew: x\n", complaint)

    def test_edit_of_no_crate(self) -> None:
        where = "put it into crates/NAME/must-fail/, where NAME is the crate that it changes"
        for name in ("README.md", "crates/learn/mine.edit", "/elsewhere/must-fail/mine.edit"):
            complaint = f"{name} lies in no crate: {where}\n"
            self.assertEqual(call(name, "scattered_rows"), (2, "", complaint))

    def test_edit_without_its_suffix(self) -> None:
        name = "crates/learn/must-fail/mine"
        complaint = f"{name} must have a name that ends in .edit\n"
        self.assertEqual(call(name, "scattered_rows"), (2, "", complaint))

    def test_edit_of_a_crate_that_is_not_there(self) -> None:
        name = "crates/lern/must-fail/mine.edit"
        complaint = f"{name}: there is no crate 'lern'; crates.txt lists the crates\n"
        self.assertEqual(call(name, "scattered_rows"), (2, "", complaint))

    def test_edit_that_is_not_there(self) -> None:
        name = "crates/matches/must-fail/mine.edit"
        others = "matched_by_destination_alone.edit, received_number_not_passed_on.edit"
        complaint = f"there is no file {name}; edits in its folder: {others}\n"
        self.assertEqual(call(name, "scattered_rows"), (2, "", complaint))


class Runs(unittest.TestCase):
    def assert_complaint(self, complaint: str, tried: object, *operands: object) -> None:
        with self.assertRaises(try_edit.Complaint) as raised:
            tried(*operands)
        self.assertEqual((raised.exception.status, str(raised.exception)), (1, complaint))

    def test_what_differs_late_in_a_run(self) -> None:
        training = (ROOT / "examples" / "training" / "error_by_destination.bench").read_text()
        with tempfile.NamedTemporaryFile("w", suffix=".bench") as script:
            script.write(f"repeat 40 advance 0\n{training}")
            script.flush()
            edit = "crates/matches/must-fail/matched_by_destination_alone.edit"
            status, output, complaint = call(edit, script.name)
        self.assertEqual((status, complaint), (0, ""))
        lines = [" ".join(line.split()) for line in output.splitlines()]
        self.assertEqual(lines.count("advance 0 accepted"), 40)
        self.assertEqual(lines[-2], "- walk 3 2 arrives after 2 hops")
        self.assertEqual(lines[-1], "+ walk 3 2 stops after 1 hop (41: no active row there)")

    def test_edit_that_does_not_compile(self) -> None:
        run = try_edit.ProgramRun("scattered_rows")
        replacement = try_edit.Replacement("src/search.rt", "found.or_else", "fund.or_else")
        with self.assertRaises(try_edit.Complaint) as raised:
            try_edit.answers_with(try_edit.Edit("table", [replacement]), run)
        first, second = str(raised.exception).split("\n")
        self.assertEqual(first, "with the edit the code does not compile:")
        where = r"crates/table/src/search\.rt:[0-9]+:[0-9]+: "
        self.assertRegex(second, where + r"error\[unknown-name\]: .*`fund`")
        self.assertEqual(raised.exception.status, 1)

    def test_run_that_does_not_end_well(self) -> None:
        edit = "crates/counters/must-fail/step_does_not_wrap.edit"
        status, output, complaint = call(edit, "examples/training/plain_numbers.bench")
        self.assertEqual((status, output), (1, ""))
        self.assertIn("bench was not run to its end:\n", complaint)
        overflow = "the result of an operation does not fit its type, called from "
        self.assertIn(f"fault kind=overflow in=counters::one_more: {overflow}", complaint)

    def test_run_that_shows_nothing(self) -> None:
        complaint = (
            "nothing differs: this run does the same with the edit; "
            "choose a run that gets to the changed code and depends on it"
        )
        answers = [try_edit.Answer("rows 0")]
        with patch.object(try_edit, "answers_with", return_value=answers):
            run = try_edit.ProgramRun("scattered_rows")
            self.assert_complaint(complaint, try_edit.run_shown, None, run)

    def test_words_of_rt_that_are_not_understood(self) -> None:
        for status, said in (
            (0, ""),
            (2, "rt: no"),
            (2, "run=none proved=no"),  # not refused by the compiler, which ends with status 1
            (1, "run=ended status=1 runners=2 proved=no"),
            (4, "run=fault proved=no"),
            (0, "run=ended status=0 runners=2 proved=no\nrt: no"),  # not at the end
        ):
            with self.subTest(said):
                self.assert_not_run_to_its_end(status, said)

    def test_program_that_writes_too_much(self) -> None:
        said = "checked: no-answer: the program wrote more than\nrun=no-answer proved=no"
        self.assert_not_run_to_its_end(6, said)

    def assert_not_run_to_its_end(self, status: int, said: str) -> None:
        tried = status, b"some output", f"{said}\n"
        with patch.object(trying, "try_program", return_value=tried):
            complaint = f"some was not run to its end:\n{said}"
            self.assert_complaint(complaint, trying.written_by, ROOT, "some", b"")

    def test_compiler_that_does_not_end(self) -> None:
        late = subprocess.TimeoutExpired("rt", 1)
        with patch.object(subprocess, "run", side_effect=late):
            complaint = "'rt try' did not end within 600 seconds"
            self.assert_complaint(complaint, trying.try_program, ROOT, "bench", b"")

    def test_compiler_messages_have_paths_from_the_root(self) -> None:
        said = "src/main.rt:1:2: error: one\n/copy/crates/other/src/lib.rt:3:4: error: two\n"
        message = "crates/some/src/main.rt:1:2: error: one\ncrates/other/src/lib.rt:3:4: error: two"
        tried = 1, b"", f"{said}run=none proved=no\n"
        with patch.object(trying, "try_program", return_value=tried):
            complaint = f"the code does not compile:\n{message}"
            self.assert_complaint(complaint, trying.written_by, Path("/copy"), "some", b"")

    def test_each_program_gets_its_own_input(self) -> None:
        given = {}

        def keep(root: Path, program: str, octets: bytes) -> tuple[int, bytes, str]:
            given[program] = octets
            return 0, octets, "run=ended status=0 runners=2 proved=no\n"

        with tempfile.TemporaryDirectory() as root, patch.object(trying, "try_program", keep):
            for program in ("with_input", "without"):
                (Path(root) / "crates" / program).mkdir(parents=True)
            (Path(root) / "crates" / "with_input" / "stdin").write_bytes(b"its own")
            self.assertEqual(trying.output_in(Path(root), "with_input"), "its own")
            self.assertEqual(trying.output_in(Path(root), "without"), "")
            self.assertEqual(trying.bench_output_in(Path(root), b"of a script"), b"of a script")
        expected = {"with_input": b"its own", "without": b"", "bench": b"of a script"}
        self.assertEqual(given, expected)

    def test_a_copy_has_the_code_alone(self) -> None:
        with trying.copied_code() as copy:
            parts = {path.relative_to(copy / "crates").parts[1] for path in copy.rglob("*/*.rt")}
            others = {path.name for path in copy.glob("crates/*/*")} - {"src", "stdin", "stdout"}
            programs = sorted(path.parts[-3] for path in copy.glob("crates/*/src/main.rt"))
        self.assertEqual((parts, others), ({"src"}, set()))
        self.assertEqual(programs, ["bench", "scattered_rows"])
        self.assertFalse(copy.exists())

    def test_no_rt(self) -> None:
        with patch.dict("os.environ", PATH="/nowhere"):
            complaint = "rt cannot be run: No such file or directory"
            self.assert_complaint(complaint, trying.try_program, ROOT, "bench", b"")

    def test_no_such_run(self) -> None:
        edit = "crates/table/must-fail/free_rows_side_by_side.edit"
        complaint = (
            "there is no run no_such: it is neither the file of a script "
            "nor a program crate (bench, scattered_rows)\n"
        )
        self.assertEqual(call(edit, "no_such"), (2, "", complaint))


class Shown(unittest.TestCase):
    def shown(self, script: str, before: str, after: str) -> list[str]:
        """Answers what is shown if the bench writes `before` without the edit, `after` with it."""
        run = try_edit.ScriptRun(try_edit.benchscript.read_script("", script))
        return self.shown_run(run, before, after)

    def shown_run(self, run: object, *outputs: str) -> list[str]:
        """Answers what is shown of a run that writes these outputs, one for each side."""
        answers = []
        for output in outputs:
            with (
                patch.object(try_edit, "output_in", return_value=output),
                patch.object(try_edit, "bench_output_in", return_value=output.encode()),
            ):
                answers.append(run.answers_in(ROOT))
        return list(try_edit.marked(*answers))

    def test_lines_of_a_program(self) -> None:
        shown = self.shown_run(try_edit.ProgramRun("some"), "a\nb\nc\n", "a\nd\n")
        self.assertEqual(shown, ["  a", "- b", "+ d", "- c"])

    def test_label_means_the_frame_of_its_line_on_both_sides(self) -> None:
        script = "announce 0 1\ndeliver 0 0\nannounce 0 1 as late\ndeliver late 0\n"
        run = try_edit.ScriptRun(try_edit.benchscript.read_script("", script))
        for first, frame in ((0, 1), (1, 2), (3, 4)):
            sent = []

            def bench(_: Path, octets: bytes) -> bytes:
                sent.append(octets)
                return f"5 0 1\n6 0 {first}\n5 0 1\n6 0 0\n".encode()

            with patch.object(try_edit, "bench_output_in", bench):
                answers = run.answers_in(ROOT)
            self.assertEqual(sent[-1][-4:], bytes([6, frame, 0, 0]))
            words = f"accepted, emits frame {frame}"
            self.assertEqual(answers[2], ("announce 0 1 as late", words))
            self.assertEqual(answers[3].line, "deliver late 0")

    def test_label_that_names_a_frame_on_one_side_only(self) -> None:
        script = "announce 0 1 as first\ndeliver first 0 as late\ndeliver late 0\nadvance 1\n"
        outputs = iter([b"5 0 1\n6 0 1\n6 0 0\n2 0 0\n"])
        run = try_edit.ScriptRun(try_edit.benchscript.read_script("", script))
        with patch.object(try_edit, "bench_output_in", lambda *_: next(outputs)):
            before = run.answers_in(ROOT)
        outputs = iter([b"5 0 1\n6 25 0\n6 25 0\n2 0 0\n", b"5 0 1\n6 25 0\n"])
        with patch.object(try_edit, "bench_output_in", lambda *_: next(outputs)):
            after = run.answers_in(ROOT)
        shown = [" ".join(line.split()) for line in try_edit.marked(before, after)]
        self.assertEqual(
            shown[-4:],
            [
                "- deliver late 0 accepted, emits no frame",
                "+ deliver late 0 ends the run at line 3: line 2 was refused, "
                "so there is no frame 'late'",
                "- advance 1 accepted",
                "+ what follows was not run",
            ],
        )

    def test_commands_stay_in_step_where_many_are_equal(self) -> None:
        before, after = "8 0 0\n" * 5 + "2 0 0\n", "8 0 0\n" * 4 + "8 41 0\n" + "2 0 0\n"
        shown = self.shown("repeat 5 walk 0 0\nadvance 1\n", before, after)
        self.assertEqual("".join(line[0] for line in shown), "    -+ ")

    def test_run_that_ends_early(self) -> None:
        script = "advance 1\nwalk 0 0\nask 0 0 02:00:00:00:00:01 1\n"
        self.assertEqual(
            self.shown(script, "2 0 0\n8 0 0\n4 0 1\n", "2 0 0\nE 5\n"),
            [
                "  advance 1                     accepted",
                "- walk 0 0                      arrives after 0 hops",
                "+ walk 0 0                      ends the run at line 2 (octet 5): "
                "there is no point 0 (0 points so far)",
                "- ask 0 0 02:00:00:00:00:01 1   accepted, emits frame 0",
                "+                               what follows was not run",
            ],
        )

    def test_words_that_need_two_lines(self) -> None:
        self.assertEqual(
            self.shown("deliver 0 0\n", "6 0 0\n", "6 25 0\n"),
            [
                "- deliver 0 0   accepted, emits no frame",
                "+ deliver 0 0   refused 25: the element's number is older than the row's, "
                "or equal and its metric over this",
                "+               link is not smaller",
            ],
        )


if __name__ == "__main__":
    unittest.main()
