"""Tests of benchscript and of the scripts in examples/bench.

Run from anywhere: python3 tools/test_benchscript.py
The bench program is crates/bench/out/bench, or the one that HWMP_BENCH names. Without one, the
tests that need it fail. HWMP_SEED repeats the random octets of an earlier run, which printed its
seed.
One test runs 'rt try', which needs rt, but nothing proved and no program built.
"""

import io
import os
import random
import re
import subprocess
import sys
import tempfile
import unittest
from pathlib import Path
from unittest.mock import patch

sys.dont_write_bytecode = True  # set first, so that nothing is written next to the tools

from loading import load_tool

ROOT = Path(__file__).resolve().parent.parent
TOOL = ROOT / "tools" / "benchscript"
BENCH = Path(os.environ.get("HWMP_BENCH", ROOT / "crates" / "bench" / "out" / "bench"))
EXAMPLES = ROOT / "examples" / "bench"
SCRIPTS = sorted(EXAMPLES.glob("*.bench"))
SEED = int(os.environ.get("HWMP_SEED", random.randrange(2**32)))


benchscript = load_tool("benchscript")


def call(*arguments: object, given: bytes = b"") -> subprocess.CompletedProcess:
    """Runs the tool as a trainee would."""
    command = [sys.executable, TOOL, *arguments]
    return subprocess.run(command, input=given, capture_output=True, check=False)


def read(script: str) -> "benchscript.Script":
    return benchscript.read_script("my.bench", script)


def no_bench(*_: object) -> bytes:
    raise AssertionError("the bench was run")


def octets_of(script: str) -> bytes:
    """The octets of a script without labels."""
    with patch.object(benchscript, "run_bench", no_bench):
        return benchscript.octets_of(read(script), BENCH)


def lines_of(octets: bytes) -> list[str]:
    return list(benchscript.octets_to_lines(octets))


def answers_for(script: str, output: str) -> list[tuple[str, str]]:
    """The commands of a script with what the tool says if the bench prints this."""
    played = benchscript.play(read(script), lambda _: output.encode())
    return list(benchscript.answers_in_words(read(script), played))


def words_for(script: str, output: str) -> list[str]:
    return [words for _, words in answers_for(script, output)]


# Each command as docs/PROTOCOL.md, 'Bench' lays it out. The numbers show the order of their octets.
EACH_COMMAND = {
    "point 02:0a:00:00:00:fe 67305985": "01 020a000000fe 01020304",
    "advance 500": "02 f4010000",
    "link 0 1 4294967295": "03 00 01 ffffffff",
    "ask 3 DO 02:00:00:00:00:09 1000": "04 03 01 020000000009 e8030000",
    "announce 255 1": "05 ff 01000000",
    "deliver 513 7": "06 0102 07",
    "break 1 2": "07 01 02",
    "walk 15 0": "08 0f 00",
}

TWO_POINTS = "point 02:00:00:00:00:01 0\npoint 02:00:00:00:00:02 0\n"
TWO_ADDED = "1 0 0\n1 0 0\n"

STALE = (
    "the element's number is older than the row's, "
    "or equal and its metric over this link is not smaller"
)


class Conversion(unittest.TestCase):
    def test_each_command_both_ways(self) -> None:
        self.assertEqual(len(EACH_COMMAND), len(benchscript.COMMANDS))
        for line, octets in EACH_COMMAND.items():
            with self.subTest(line):
                self.assertEqual(octets_of(line), bytes.fromhex(octets))
                self.assertEqual(lines_of(bytes.fromhex(octets)), [line])

    def test_commands_follow_one_another_in_order(self) -> None:
        octets = bytes.fromhex("".join(EACH_COMMAND.values()))
        self.assertEqual(octets_of("\n".join(EACH_COMMAND)), octets)
        self.assertEqual(lines_of(octets), list(EACH_COMMAND))

    def test_comments_blank_lines_and_line_ends(self) -> None:
        script = "# first\n\n  walk 0 1# no space before\r\n\t\n walk   1\t0  # last"
        self.assertEqual(octets_of(script), bytes.fromhex("080001 080100"))
        self.assertEqual(octets_of(""), b"")

    def test_least_and_largest_numbers(self) -> None:
        self.assertEqual(octets_of("advance 0"), bytes.fromhex("0200000000"))
        self.assertEqual(octets_of("advance 0004294967295"), bytes.fromhex("02ffffffff"))
        self.assertEqual(octets_of("deliver 65535 255"), bytes.fromhex("06ffffff"))

    def test_addresses_and_octets_in_either_case(self) -> None:
        self.assertEqual(octets_of("ask 0 0 0A:Bc:00:00:00:fF 0")[3:9].hex(), "0abc000000ff")
        self.assertEqual(octets_of("octets 09 fF 00"), bytes.fromhex("09ff00"))

    def test_flags_in_words_or_as_numbers(self) -> None:
        for word, numbers in {"none": "0 00", "DO": "1 001", "RF": "2", "DO+RF": "3"}.items():
            for flags in (word, *numbers.split()):
                with self.subTest(flags):
                    octets = octets_of(f"ask 0 {flags} 02:00:00:00:00:03 1")
                    self.assertEqual(octets[2], int(numbers[0]))
                    self.assertEqual(lines_of(octets), [f"ask 0 {word} 02:00:00:00:00:03 1"])

    def test_all_flags_come_back_from_what_is_shown(self) -> None:
        asks = [bytes([4, 0, flags, 2, 0, 0, 0, 0, 3, 1, 0, 0, 0]) for flags in range(256)]
        lines = lines_of(b"".join(asks))
        shown = ["none", "DO", "RF", "DO+RF", *map(str, range(4, 256))]
        self.assertEqual([line.split()[2] for line in lines], shown)
        self.assertEqual([octets_of(line) for line in lines], asks)

    def test_repeat(self) -> None:
        self.assertEqual(octets_of("repeat 3 walk 0 1"), bytes.fromhex("080001") * 3)
        self.assertEqual(octets_of("repeat 2 octets 09 0a"), bytes.fromhex("090a090a"))
        self.assertEqual(len(octets_of("repeat 65537 advance 4294967295")), 5 * 65537)

    def test_many_equal_commands_become_a_repeat(self) -> None:
        walk = bytes.fromhex("080001")
        self.assertEqual(lines_of(walk * 3), ["walk 0 1"] * 3)
        self.assertEqual(lines_of(walk * 4), ["repeat 4 walk 0 1"])
        self.assertEqual(lines_of(walk * 1_000_002), ["repeat 1000000 walk 0 1"] + ["walk 0 1"] * 2)

    def test_octets_of_no_whole_command_become_the_last_line(self) -> None:
        unknown, cut = bytes.fromhex("080001 09 080001"), bytes.fromhex("080001 0800")
        self.assertEqual(lines_of(unknown), ["walk 0 1", "octets 09 08 00 01"])
        self.assertEqual(lines_of(cut), ["walk 0 1", "octets 08 00"])
        self.assertEqual(lines_of(b"\x00"), ["octets 00"])
        self.assertEqual(lines_of(b""), [])

    def test_random_octets_come_back_from_their_lines(self) -> None:
        rng = random.Random(SEED)
        for _ in range(3000):
            octets = random_octets(rng)
            with self.subTest(seed=SEED, octets=octets.hex()):
                self.assertEqual(octets_of("\n".join(lines_of(octets))), octets)

    def test_each_cut_of_each_command_comes_back(self) -> None:
        for octets in map(bytes.fromhex, EACH_COMMAND.values()):
            for length in range(1, len(octets)):
                lines = lines_of(octets[:length])
                self.assertEqual(lines, [f"octets {octets[:length].hex(' ')}"])
                self.assertEqual(octets_of(lines[0]), octets[:length])

    def test_octets_and_lines_from_the_command_line(self) -> None:
        octets = bytes(range(256))
        lines = call("lines", "-", given=octets)
        self.assertEqual((lines.returncode, lines.stderr), (0, b""))
        back = call("octets", "-", given=lines.stdout)
        self.assertEqual((back.returncode, back.stdout, back.stderr), (0, octets, b""))


def random_octets(rng: random.Random) -> bytes:
    """Whole commands, some of them many times, and in half of the cases octets of any kind."""
    parts = []
    for _ in range(rng.randrange(6)):
        command = rng.choice(list(benchscript.COMMANDS.values()))
        step = bytes([command.code]) + rng.randbytes(command.width - 1)
        parts.append(step * rng.choice([1, 1, 2, 3, 4, 9]))
    if rng.random() < 0.5:
        parts.insert(rng.randint(0, len(parts)), rng.randbytes(rng.randrange(30)))
    return b"".join(parts)


NO_FLAGS = "is neither a decimal number nor one of the words none, DO, RF, DO+RF"

BAD_LINES = {
    "wait 5": "unknown word 'wait'; the words are point, advance, link, ask, announce, deliver, "
    "break, walk, octets, repeat",
    "Walk 0 1": "unknown word 'Walk'; the words are point, advance, link, ask, announce, deliver, "
    "break, walk, octets, repeat",
    "point 02:00:00:00:00:01": "wrong number of operands; expected 'point ADDRESS NUMBER'",
    "advance": "wrong number of operands; expected 'advance MILLISECONDS'",
    "link 0 1": "wrong number of operands; expected 'link POINT POINT METRIC'",
    "ask 0 02:00:00:00:00:03 1000": "wrong number of operands; "
    "expected 'ask POINT FLAGS ADDRESS LIFETIME'",
    "announce 0 0 1000": "wrong number of operands; expected 'announce POINT LIFETIME'",
    "deliver 0": "wrong number of operands; expected 'deliver FRAME POINT'",
    "break 1": "wrong number of operands; expected 'break POINT NEIGHBOUR'",
    "walk 0 1 2": "wrong number of operands; expected 'walk START DESTINATION'",
    "octets": "wrong number of operands; expected 'octets XX ..'",
    "repeat 3": "wrong number of operands; expected 'repeat TIMES LINE'",
    "point 02:00:00:00:00 0": "'02:00:00:00:00' is no address; "
    "write one like 02:00:00:00:00:01",
    "point 2:0:0:0:0:1 0": "'2:0:0:0:0:1' is no address; write one like 02:00:00:00:00:01",
    "ask 0 0 02:00:00:00:00:0g 1": "'02:00:00:00:00:0g' is no address; "
    "write one like 02:00:00:00:00:01",
    "point 02:00:00:00:00:01 4294967296": "NUMBER 4294967296 is out of range: 0 to 4294967295",
    "advance 4294967296": "MILLISECONDS 4294967296 is out of range: 0 to 4294967295",
    "link 256 0 1": "POINT 256 is out of range: 0 to 255",
    "link 0 256 1": "POINT 256 is out of range: 0 to 255",
    "link 0 1 4294967296": "METRIC 4294967296 is out of range: 0 to 4294967295",
    "ask 0 256 02:00:00:00:00:03 1": "FLAGS 256 is out of range: 0 to 255",
    "ask 0 do 02:00:00:00:00:03 1": f"FLAGS 'do' {NO_FLAGS}",
    "ask 0 RF+DO 02:00:00:00:00:03 1": f"FLAGS 'RF+DO' {NO_FLAGS}",
    "ask 0 DO+ 02:00:00:00:00:03 1": f"FLAGS 'DO+' {NO_FLAGS}",
    "ask 0 DO RF 02:00:00:00:00:03 1": "wrong number of operands; "
    "expected 'ask POINT FLAGS ADDRESS LIFETIME'",
    "ask DO 0 02:00:00:00:00:03 1": "POINT 'DO' is not a decimal number",
    "announce 0 99999999999": "LIFETIME 99999999999 is out of range: 0 to 4294967295",
    "deliver 65536 0": "FRAME 65536 is out of range: 0 to 65535",
    "break 0 256": "NEIGHBOUR 256 is out of range: 0 to 255",
    "walk 256 0": "START 256 is out of range: 0 to 255",
    "walk 0 256": "DESTINATION 256 is out of range: 0 to 255",
    "walk 0 " + "9" * 5000: "DESTINATION " + "9" * 5000 + " is out of range: 0 to 255",
    "walk 0 -1": "DESTINATION '-1' is not a decimal number",
    "advance 0x10": "MILLISECONDS '0x10' is not a decimal number",
    "advance 1_000": "MILLISECONDS '1_000' is not a decimal number",
    "advance \u0663": "MILLISECONDS '\u0663' is not a decimal number",
    "octets 09 100": "'100' is no octet; write two hexadecimal digits, 00 to ff",
    "octets 9": "'9' is no octet; write two hexadecimal digits, 00 to ff",
    "repeat 0 walk 0 1": "TIMES 0 is out of range: 1 to 1000000",
    "repeat 1000001 walk 0 1": "TIMES 1000001 is out of range: 1 to 1000000",
    "repeat two walk 0 1": "TIMES 'two' is not a decimal number",
    "repeat 2 repeat 2 walk 0 1": "a repeat cannot be repeated",
    "repeat 2 walk 0": "wrong number of operands; expected 'walk START DESTINATION'",
}


class BadScripts(unittest.TestCase):
    def test_message_for_each_bad_line(self) -> None:
        for place, (line, message) in enumerate(BAD_LINES.items(), start=1):
            script = "# a comment\n" * (place - 1) + line + "\nwalk 0 1\n"
            with self.subTest(line[:40]):
                with self.assertRaises(benchscript.Complaint) as raised:
                    read(script)
                self.assertEqual(str(raised.exception), f"my.bench:{place}: {message}")
                self.assertEqual(raised.exception.status, 2)

    def test_bad_line_from_the_command_line(self) -> None:
        with tempfile.TemporaryDirectory() as directory:
            bad = Path(directory) / "bad.bench"
            bad.write_text("walk 0 1\n\nwalk 0\n")
            for action in (["octets"], ["run", "--bench", "/bin/cat", SCRIPTS[0]]):
                done = call(*action, bad)
                self.assertEqual((done.returncode, done.stdout), (2, b""))
                expected = f"{bad}:3: wrong number of operands; expected 'walk START DESTINATION'\n"
                self.assertEqual(done.stderr.decode(), expected)

    def test_octets_that_are_no_text(self) -> None:
        done = call("octets", "-", given=b"walk 0 1\nwalk 0 \xff\n")
        self.assertEqual((done.returncode, done.stdout), (2, b""))
        self.assertTrue(done.stderr.startswith(b"-:2: DESTINATION "))

    def test_file_that_cannot_be_read(self) -> None:
        for action in ("run", "octets", "lines"):
            done = call(action, "/nowhere.bench")
            message = b"/nowhere.bench cannot be read: No such file or directory\n"
            self.assertEqual((done.returncode, done.stdout, done.stderr), (2, b"", message))

    def test_usage(self) -> None:
        for arguments in ([], ["walk"], ["run"], ["octets"], ["lines"]):
            done = call(*arguments)
            self.assertEqual((done.returncode, done.stdout), (2, b""))
            self.assertIn(b"usage:", done.stderr)


class ResultsInWords(unittest.TestCase):
    def assert_words(self, line: str, numbers: str, words: str) -> None:
        """Checks the words for a line after two points were added."""
        with self.subTest(line=line, numbers=numbers):
            given = words_for(TWO_POINTS + line, f"{TWO_ADDED}{numbers}\n")
            self.assertEqual(given, ["accepted as point 0", "accepted as point 1", words])

    def test_acceptances(self) -> None:
        self.assert_words("advance 5", "2 0 0", "accepted")
        self.assert_words("link 0 1 5", "3 0 0", "accepted")
        self.assert_words("ask 0 1 02:00:00:00:00:02 5", "4 0 1", "accepted, emits frame 0")
        self.assert_words("announce 0 5", "5 0 1", "accepted, emits frame 0")
        self.assert_words("deliver 0 1", "6 0 0", "accepted, emits no frame")
        self.assert_words("deliver 0 1", "6 0 2", "accepted, emits frames 0 to 1")
        self.assert_words("break 0 1", "7 0 0", "accepted, emits no frame")
        self.assert_words("break 0 1", "7 0 3", "accepted, emits frames 0 to 2")

    def test_walks(self) -> None:
        self.assert_words("walk 0 0", "8 0 0", "arrives after 0 hops")
        self.assert_words("walk 0 1", "8 0 1", "arrives after 1 hop")
        self.assert_words("walk 0 1", "8 0 2", "arrives after 2 hops")
        self.assert_words("walk 0 1", "8 41 0", "stops after 0 hops (41: no active row there)")
        self.assert_words("walk 0 1", "8 41 1", "stops after 1 hop (41: no active row there)")
        goes_round = "goes round: 2 hops without arriving (42: as many hops as points)"
        self.assert_words("walk 0 1", "8 42 2", goes_round)

    def test_refusals_that_a_command_makes_clear(self) -> None:
        not_individual = "is not individual (it is a group or all zero)"
        group = "point 03:00:00:00:00:03 0"
        self.assert_words(group, "1 9 0", f"refused 9: the own address {not_individual}")
        ask = "ask 0 9 02:00:00:00:00:01 5"
        self.assert_words(ask, "4 9 0", f"refused 9: the asked address {not_individual}")
        self.assert_words(ask, "4 10 0", "refused 10: the flags are above 3")
        self.assert_words(ask, "4 11 0", "refused 11: the lifetime is 0")
        self.assert_words(ask, "4 24 0", "refused 24: the point asks for its own address")
        same_as_own = "is the point's own address"
        self.assert_words("break 0 1", "7 23 0", f"refused 23: the neighbour {same_as_own}")
        self.assert_words("walk 0 1", "8 10 0", "refused 10: two points have the same address")

    def test_refusals_of_a_delivery(self) -> None:
        for refusal, words in {
            5: "there is no link (metric 0)",
            13: "the element's metric plus the link metric is above 4,294,967,294",
            14: "the reply's TTL is 0 or 1",
            23: "the transmitter is the point's own address",
            24: "the element's subject (its originator, or a reply's destination) "
            "is the point itself",
            25: STALE,
            26: "the error names no active row of known number through its transmitter",
            27: "the call needs more new rows than are free",
        }.items():
            self.assert_words("deliver 0 1", f"6 {refusal} 0", f"refused {refusal}: {words}")

    def test_every_refusal_has_words_of_its_own(self) -> None:
        refusals = [*range(1, 15), *range(21, 30)]
        script = TWO_POINTS + "deliver 0 1\n" * len(refusals)
        output = TWO_ADDED + "".join(f"6 {refusal} 0\n" for refusal in refusals)
        words = [given.partition(": ") for given in words_for(script, output)[2:]]
        self.assertEqual([start for start, _, _ in words], [f"refused {n}" for n in refusals])
        self.assertEqual(len({after for _, _, after in words}), len(refusals))

    def test_frames_are_counted_over_all_commands(self) -> None:
        script = TWO_POINTS + "announce 0 5\ndeliver 0 1\nbreak 0 1\ndeliver 0 1\ndeliver 1 0\n"
        given = words_for(script, TWO_ADDED + "5 0 1\n6 0 2\n7 0 0\n6 25 0\n6 0 2\n")
        self.assertEqual(given[2], "accepted, emits frame 0")
        self.assertEqual(given[3], "accepted, emits frames 1 to 2")
        self.assertEqual(given[4], "accepted, emits no frame")
        self.assertEqual(given[6], "accepted, emits frames 3 to 4")

    def test_refused_point_gets_no_number(self) -> None:
        script = "point 03:00:00:00:00:01 0\npoint 02:00:00:00:00:02 0\n"
        self.assertEqual(words_for(script, "1 9 0\n1 0 0\n")[1], "accepted as point 0")

    def test_equal_lines_with_equal_results_are_folded(self) -> None:
        given = words_for("repeat 5 advance 1\nadvance 2", "2 0 0\n" * 6)
        self.assertEqual(given, ["accepted   (5 times)", "accepted"])
        given = words_for("repeat 3 advance 1", "2 0 0\n" * 3)
        self.assertEqual(given, ["accepted"] * 3)

    def test_folded_frames_and_points_are_counted(self) -> None:
        script = "repeat 4 point 02:00:00:00:00:01 0\nrepeat 9 announce 0 1\nannounce 3 1"
        given = words_for(script, "1 0 0\n" * 4 + "5 0 1\n" * 10)
        self.assertEqual(
            given,
            [
                "accepted as points 0 to 3   (4 times)",
                "accepted, emits frames 0 to 8   (9 times)",
                "accepted, emits frame 9",
            ],
        )

    def test_equal_lines_with_other_results_stay_apart(self) -> None:
        output = TWO_ADDED + "6 0 1\n" + "6 25 0\n" * 7
        given = words_for(TWO_POINTS + "repeat 8 deliver 0 1", output)
        self.assertEqual(given[2], "accepted, emits frame 0")
        self.assertEqual(given[3], f"refused 25: {STALE}   (7 times)")
        self.assertEqual(len(given), 4)

    def test_commands_are_shown_as_their_lines_have_them(self) -> None:
        script = "  advance\t0005 # why\nrepeat 4  advance 05\noctets 08 00 00\nadvance  5"
        answers = answers_for(script, "2 0 0\n" * 5 + "8 0 0\n2 0 0\n")
        lines = [line for line, _ in answers]
        self.assertEqual(lines, ["advance 0005", "advance 05", "walk 0 0", "advance 5"])

    def test_flags_are_shown_as_their_lines_have_them_and_from_octets_in_words(self) -> None:
        ask = "ask 0 {} 02:00:00:00:00:02 5"
        octets = "octets 04 00 {} 02 00 00 00 00 02 05 00 00 00"
        for line, shown in (
            (ask.format("01"), ask.format("01")),
            (ask.format("DO"), ask.format("DO")),
            (octets.format("01"), ask.format("DO")),
            (octets.format("04"), ask.format("4")),
        ):
            with self.subTest(line):
                answers = answers_for(TWO_POINTS + line, f"{TWO_ADDED}4 0 1\n")
                self.assertEqual(answers[2], (shown, "accepted, emits frame 0"))

    def test_commands_that_lie_across_lines_are_shown_in_words(self) -> None:
        # The octets of the walks end an advance, are a point, and two are left over.
        answers = answers_for("octets 02 05 00\nrepeat 5 walk 0 1", "2 0 0\n1 0 0\nE 16\n")
        lines = ["advance 524293", "point 08:00:01:08:00:01 134283272", "octets 00 01"]
        self.assertEqual([line for line, _ in answers], lines)
        ends = "ends the run at line 2 (octet 16): there is no command 0"
        self.assertEqual(answers[2][1], ends)

    def test_octets_of_no_command_are_shown_in_part(self) -> None:
        for rest, ends_with in ((12, "0a 0b"), (13, "0a 0b ..")):
            octets = bytes([9, *range(1, rest)]).hex(" ")
            answers = answers_for(f"octets 08 00 00\noctets {octets}", "8 0 0\nE 3\n")
            last = f"octets 09 01 02 03 04 05 06 07 08 09 {ends_with}"
            self.assertEqual([line for line, _ in answers], ["walk 0 0", last])

    def test_empty_script(self) -> None:
        self.assertEqual(words_for("# nothing\n", ""), [])


class EndsInWords(unittest.TestCase):
    def assert_end(self, before: str, output: str, line: str, words: str) -> None:
        """Checks the words for a line at which the bench printed E, with or without more to run."""
        offset, place = len(octets_of(before)), before.count("\n") + 1
        script = f"{before}{line}\n"
        ended = f"{output}E {offset}\n"
        expected = f"ends the run at line {place} (octet {offset}): {words}"
        self.assertEqual(words_for(script, ended)[-1], expected)
        if not line.startswith("octets"):
            given = words_for(f"{script}walk 0 0\n", ended)
            self.assertEqual(given[-2:], [expected, "what follows was not run"])

    def test_unknown_command(self) -> None:
        self.assert_end(TWO_POINTS, TWO_ADDED, "octets 09", "there is no command 9")
        self.assert_end("", "", "octets 00 01", "there is no command 0")

    def test_unknown_command_ends_with_its_line(self) -> None:
        self.assertEqual(
            words_for("octets 09\nwalk 0 0\n", "E 0\n"),
            ["ends the run at line 1 (octet 0): there is no command 9", "what follows was not run"],
        )

    def test_cut_operands(self) -> None:
        cut = "the input ends inside 'advance MILLISECONDS'"
        self.assert_end("advance 1\n", "2 0 0\n", "octets 02", cut)
        self.assert_end("advance 1\n", "2 0 0\n", "octets 02 00 00 00", cut)

    def test_no_such_point(self) -> None:
        words = "there is no point 2 (2 points so far)"
        for line in (
            "link 0 2 5",
            "link 2 0 5",
            "ask 2 0 02:00:00:00:00:01 5",
            "announce 2 5",
            "break 0 2",
            "break 2 0",
            "walk 0 2",
            "walk 2 0",
        ):
            with self.subTest(line):
                self.assert_end(TWO_POINTS, TWO_ADDED, line, words)
        one = "point 02:00:00:00:00:01 0\n"
        self.assert_end(one, "1 0 0\n", "walk 0 255", "there is no point 255 (1 point so far)")

    def test_no_such_frame(self) -> None:
        before, output = TWO_POINTS + "announce 0 5\n", TWO_ADDED + "5 0 1\n"
        self.assert_end(before, output, "deliver 1 0", "there is no frame 1 (1 frame so far)")
        self.assert_end(before, output, "deliver 0 2", "there is no point 2 (2 points so far)")

    def test_a_17th_point(self) -> None:
        before = "repeat 16 point 02:00:00:00:00:01 0\n"
        words = "there are 16 points already, the most there can be"
        self.assert_end(before, "1 0 0\n" * 16, "point 02:00:00:00:00:02 0", words)

    def test_more_than_128_frames(self) -> None:
        words = "there would be more than 128 frames"
        for frames, line in (
            (128, "announce 1 5"),
            (128, "ask 0 0 02:00:00:00:00:02 5"),
            (128, "break 0 1"),
            (127, "deliver 0 1"),
        ):
            before = f"{TWO_POINTS}repeat {frames} announce 0 5\n"
            with self.subTest(line):
                self.assert_end(before, TWO_ADDED + "5 0 1\n" * frames, line, words)

    def test_clock_above_the_last(self) -> None:
        before = "repeat 65536 advance 4294967295\nadvance 65535\n"
        words = "the clock would pass 2^48 - 1"
        self.assert_end(before, "2 0 0\n" * 65537, "advance 1", words)

    def test_line_of_a_fault_after_comments_and_in_a_repeat(self) -> None:
        script = "# why\n\nadvance 1  # octets 0 to 4\n\nrepeat 3 advance 1\n# why\nwalk 0 0\n"
        why = "there is no point 0 (0 points so far)"
        given = words_for(script, "2 0 0\n" * 4 + "E 20\n")
        self.assertEqual(given[-1], f"ends the run at line 7 (octet 20): {why}")
        given = words_for("repeat 2 advance 1\nrepeat 5 walk 0 0\n", "2 0 0\n" * 2 + "E 10\n")
        ended = f"ends the run at line 2 (octet 10): {why}"
        self.assertEqual(given[-2:], [ended, "what follows was not run"])

    def test_line_of_a_fault_in_octets(self) -> None:
        why = "there is no point 3 (0 points so far)"
        for script, place in (
            ("octets 02 00 00 00 00 08 03 00\nadvance 1", 1),  # the second command of its line
            ("octets 02 00 00 00 00\n\noctets 08\noctets 03 00", 3),  # on two lines
            ("octets 02 00 00\noctets 00 00 08 03\noctets 00", 2),  # within a line, on two lines
        ):
            with self.subTest(script):
                ends = f"ends the run at line {place} (octet 5): {why}"
                answers = answers_for(script, "2 0 0\nE 5\n")
                self.assertEqual(answers[1], ("walk 3 0", ends))


class WithFakeBench(unittest.TestCase):
    """Runs of the tool on programs that stand in for the bench."""

    def setUp(self) -> None:
        directory = tempfile.TemporaryDirectory()
        self.addCleanup(directory.cleanup)
        self.bench = Path(directory.name) / "bench"
        self.script = Path(directory.name) / "short.bench"
        self.script.write_text("advance 1\nwalk 0 0\n")

    def print_instead(self, output: str, status: int = 0) -> None:
        """Makes the bench a program that reads all and prints this."""
        self.bench.write_text(f"#!/bin/sh\ncat >/dev/null\nprintf '{output}'\nexit {status}\n")
        self.bench.chmod(0o755)

    def run_tool(self) -> tuple[int, str, str]:
        done = call("run", "--bench", self.bench, self.script)
        return done.returncode, done.stdout.decode(), done.stderr.decode()

    def emit(self, *counts: int) -> None:
        """Makes the bench a program that accepts commands, each of which emits so many frames.

        A negative number is a refusal. At a delivery of a frame that is not there the bench ends,
        so the numbers in the octets matter.
        """
        self.bench.write_text(FRAMES_BENCH.format(python=sys.executable, counts=counts))
        self.bench.chmod(0o755)

    def assert_complaint(self, complaint: str) -> None:
        self.assertEqual(self.run_tool(), (1, "", f"{complaint}\n"))


class FakeBench(WithFakeBench):
    """Runs on programs that are no bench, or a bad one."""

    def test_good_output(self) -> None:
        self.print_instead("2 0 0\\n8 0 0\\n")
        expected = "advance 1   accepted\nwalk 0 0    arrives after 0 hops\n"
        self.assertEqual(self.run_tool(), (0, expected, ""))

    def test_fault(self) -> None:
        self.print_instead("2 0 0\\nE 5\\n")
        words = "ends the run at line 2 (octet 5): there is no point 0 (0 points so far)"
        self.assertEqual(self.run_tool(), (1, f"advance 1   accepted\nwalk 0 0    {words}\n", ""))

    def test_several_scripts_are_run_one_by_one(self) -> None:
        self.print_instead("2 0 0\\n8 0 0\\n")
        done = call("run", "--bench", self.bench, self.script, self.script)
        one = f"== {self.script}\nadvance 1   accepted\nwalk 0 0    arrives after 0 hops\n"
        self.assertEqual((done.returncode, done.stdout.decode()), (0, one * 2))

    def test_a_fault_of_one_script_does_not_stop_the_others(self) -> None:
        self.bench.write_text(
            "#!/bin/sh\n"
            'if [ "$(wc -c)" = 8 ]; then printf "2 0 0\\nE 5\\n"; else printf "2 0 0\\n"; fi\n'
        )
        self.bench.chmod(0o755)
        other = self.script.with_name("other.bench")
        other.write_text("advance 1\n")
        for scripts in ((self.script, other), (other, self.script), (other, self.script, other)):
            done = call("run", "--bench", self.bench, *scripts)
            heads = [line for line in done.stdout.decode().splitlines() if line.startswith("==")]
            self.assertEqual(heads, [f"== {script}" for script in scripts])
            self.assertEqual(done.stdout.decode().count("ends the run at line 2 (octet 5): "), 1)
            self.assertEqual((done.returncode, done.stderr), (1, b""))
        self.assertEqual(call("run", "--bench", self.bench, other, other).returncode, 0)

    def test_the_bench_gets_the_octets_of_the_script(self) -> None:
        self.bench.write_text("#!/bin/sh\ncat >\"$0.given\"\nprintf '2 0 0\\n8 0 0\\n'\n")
        self.bench.chmod(0o755)
        self.assertEqual(self.run_tool()[0], 0)
        given = self.bench.with_suffix(".given").read_bytes()
        self.assertEqual(given, bytes.fromhex("0201000000 080000"))

    def test_missing(self) -> None:
        proves = "'(cd crates/bench && rt run <stdin)' proves and builds it"
        help_on_it = f"{proves}, and 'benchscript try' needs none"
        self.assert_complaint(f"there is no bench at {self.bench}; {help_on_it}")

    def test_not_to_be_run(self) -> None:
        self.bench.write_text("no program")
        self.assert_complaint(f"{self.bench} cannot be run: Permission denied")
        self.bench.chmod(0o755)
        self.assert_complaint(f"{self.bench} cannot be run: Exec format error")

    def test_failing_bench(self) -> None:
        self.print_instead("2 0 0\\n8 0 0\\n", status=3)
        self.assert_complaint("the bench ended with exit status 3")

    def test_bench_that_does_not_end(self) -> None:
        self.assertEqual(benchscript.TIME_LIMIT, 60)
        self.bench.write_text("#!/bin/sh\nexec sleep 600\n")
        self.bench.chmod(0o755)
        with (
            patch.object(benchscript, "TIME_LIMIT", 0.1),
            self.assertRaises(benchscript.Complaint) as raised,
        ):
            benchscript.run_bench(self.bench, b"")
        self.assertEqual(str(raised.exception), "the bench has not ended after 0.1 seconds")
        self.assertEqual(raised.exception.status, 1)

    def test_malformed_lines(self) -> None:
        for line in (
            "2 0",  # too few numbers
            "2 0 0 0",
            "2  0 0",
            "2 0 0 ",
            "2 0 -1",
            "3 0 0",  # another command
            "2 15 0",  # no refusal has this number
            "2 41 0",  # of a walk alone
            "E 5",  # another octet
            "E",
            "E0",
            "e 0",
            "",
        ):
            with self.subTest(line):
                self.print_instead(f"{line}\\n8 0 0\\n")
                self.assert_complaint(f"the bench's line 1, '{line}', is no answer to 'advance 1'")

    def test_malformed_walk(self) -> None:
        for line in ("8 43 0", "8 999 0", "8 0 1000"):
            with self.subTest(line):
                self.print_instead(f"2 0 0\\n{line}\\n")
                self.assert_complaint(f"the bench's line 2, '{line}', is no answer to 'walk 0 0'")

    def test_octets_that_are_no_text(self) -> None:
        self.print_instead("2 0 \\377\\n")
        self.assert_complaint("the bench's line 1, '2 0 \\\\xff', is no answer to 'advance 1'")

    def test_last_line_without_end(self) -> None:
        self.print_instead("2 0 0\\n8 0 0")
        self.assert_complaint("the bench's last line has no end")

    def test_too_few_and_too_many_lines(self) -> None:
        self.print_instead("2 0 0\\n")
        self.assert_complaint("the bench printed 1 line for 2 commands")
        self.print_instead("2 0 0\\n8 0 0\\n8 0 0\\n")
        self.assert_complaint("the bench printed 3 lines for 2 commands")
        self.print_instead("2 0 0\\n8 0 0\\nE 8\\n")
        self.assert_complaint("the bench printed 3 lines for 2 commands")

    def test_lines_after_the_end(self) -> None:
        self.print_instead("E 0\\n8 0 0\\n")
        self.assert_complaint("the bench's line 1, 'E 0', is no answer to 'advance 1'")

    def test_end_that_names_another_octet(self) -> None:
        for line in ("E 0", "E 4", "E 6", "E 05", "E5", "E", "E 5 "):
            with self.subTest(line):
                self.print_instead(f"2 0 0\\n{line}\\n")
                self.assert_complaint(f"the bench's line 2, '{line}', is no answer to 'walk 0 0'")

    def test_end_without_a_fault(self) -> None:
        self.print_instead("E 0\\n")
        self.assert_complaint("the bench ended at octet 0, 'advance 1', which is no fault")

    def test_answer_to_no_whole_command(self) -> None:
        self.script.write_text("octets 02 01 00")
        self.print_instead("2 0 0\\n")
        self.assert_complaint("the bench's line 1, '2 0 0', is no answer to 'octets 02 01 00'")
        self.print_instead("")
        self.assert_complaint("the bench printed 0 lines for 1 command")

    def test_bench_that_reads_nothing(self) -> None:
        self.script.write_text("repeat 65536 advance 1")
        self.bench.write_text("#!/bin/sh\nprintf 'E 0\\n'\n")
        self.bench.chmod(0o755)
        self.assert_complaint("the bench ended at octet 0, 'advance 1', which is no fault")


class Labels(WithFakeBench):
    """Labels, on benches that emit other numbers of frames than one would guess."""

    def run_script(self, script: str) -> tuple[int, list[str], str]:
        """Runs a script. Answers the status, the lines with single spaces, and the complaint."""
        self.script.write_text(script)
        status, output, complaint = self.run_tool()
        return status, [" ".join(line.split()) for line in output.splitlines()], complaint

    def octets_sent(self) -> list[bytes]:
        """The octets of each run of the bench."""
        given = sorted(self.bench.parent.glob("given.*"), key=lambda path: int(path.suffix[1:]))
        return [path.read_bytes() for path in given]

    def assert_last_sent(self, deliveries: list[int]) -> None:
        """Checks the frames that the deliveries name in the last run."""
        steps, _ = benchscript.split_into_steps(self.octets_sent()[-1])
        frames = [step[1] for step in steps if step[0] == benchscript.DELIVER]
        self.assertEqual(frames, deliveries)

    def test_right_guess_takes_one_run(self) -> None:
        self.emit(1, 1, 1)
        status, lines, _ = self.run_script(
            "announce 0 1 as first\ndeliver first 0 as second\ndeliver second  0  # why\n"
        )
        self.assertEqual(status, 0)
        self.assertEqual(
            lines,
            [
                "announce 0 1 as first accepted, emits frame 0",
                "deliver first 0 as second accepted, emits frame 1",
                "deliver second 0 accepted, emits frame 2",
            ],
        )
        self.assert_last_sent([0, 1])
        self.assertEqual(len(self.octets_sent()), 1)

    def test_wrong_guesses_take_several_runs(self) -> None:
        counts = (3, 0, 1, -25, 2, 1, 0)
        self.emit(*counts)
        status, lines, _ = self.run_script(
            "announce 0 1 as a\n"  # 0 to 2
            "deliver a 0\n"  # none
            "announce 0 1 as b\n"  # 3
            "deliver b 0\n"  # refused
            "break 0 0 as c d\n"  # 4 and 5
            "announce 0 1 as e\n"  # 6
            "deliver d 0\n"
            "deliver e 0\n"
        )
        self.assertEqual(status, 0)
        self.assertEqual(lines[4], "break 0 0 as c d accepted, emits frames 4 to 5")
        self.assertEqual(lines[5], "announce 0 1 as e accepted, emits frame 6")
        self.assert_last_sent([0, 3, 5, 6])
        self.assertGreater(len(self.octets_sent()), 1)
        self.assertLessEqual(len(self.octets_sent()), len(counts) + 1)

    def test_results_that_depend_on_the_numbers(self) -> None:
        """On this bench a delivery emits as many frames as the number that it names."""
        labels = "abcdefg"
        pairs = zip(["start", *labels], labels)
        deliveries = "".join(f"deliver {before} 0 as {label}\n" for before, label in pairs)
        script = f"announce 0 1\nannounce 0 1 as start\n{deliveries}"
        sent = []

        def bench(octets: bytes) -> bytes:
            sent.append(octets)
            steps, _ = benchscript.split_into_steps(octets)
            counts = [step[1] if step[0] == benchscript.DELIVER else 1 for step in steps]
            return "".join(f"{s[0]} 0 {n}\n" for s, n in zip(steps, counts)).encode()

        played = benchscript.play(read(script), bench)
        frames = [result.frames for result in played.results]
        numbers = [step[1] for step in benchscript.split_into_steps(played.compiled.octets)[0][2:]]
        self.assertEqual(numbers, [1, 2, 3, 5, 8, 13, 21])
        self.assertEqual(frames[2:], numbers)
        self.assertLessEqual(len(sent), len(frames) + 1)

    def test_frames_of_repeats_and_octets_count(self) -> None:
        self.emit(1, 1, 1, 1, 1, 2, 0)
        self.run_script(
            "repeat 4 announce 0 1\noctets 05 00 01 00 00 00\nannounce 0 1 as a b\ndeliver b 0\n"
        )
        self.assert_last_sent([6])

    def test_repeated_delivery_of_a_label_is_folded(self) -> None:
        self.emit(2, 0)
        _, lines, _ = self.run_script("break 0 0 as a b\nrepeat 5 deliver b 0\n")
        self.assertEqual(lines[1:], ["deliver b 0 accepted, emits no frame (5 times)"])
        self.assert_last_sent([1] * 5)

    def test_equal_lines_with_labels_are_not_folded(self) -> None:
        self.emit(1)
        _, lines, _ = self.run_script("".join(f"announce 0 1 as a{n}\n" for n in range(5)))
        self.assertEqual(lines[4], "announce 0 1 as a4 accepted, emits frame 4")

    def assert_missing(self, definition: str, count: int, why: str) -> None:
        self.emit(1, count, 1)
        script = f"announce 0 1\n{definition}\n\ndeliver 0 0\ndeliver late 0 as x\ndeliver x 0\n"
        status, lines, complaint = self.run_script(script)
        self.assertEqual((status, complaint), (1, ""))
        ends = f"deliver late 0 as x ends the run at line 5: {why}, so there is no frame 'late'"
        self.assertEqual(lines[-2:], [ends, "what follows was not run"])
        self.assertEqual(len(lines), 5)
        done = call("octets", "--bench", self.bench, self.script)
        self.assertEqual((done.returncode, done.stdout), (1, b""))
        expected = f"{self.script}:5: {why}, so there is no frame 'late'\n"
        self.assertEqual(done.stderr.decode(), expected)

    def test_label_of_a_line_that_was_refused(self) -> None:
        self.assert_missing("break 0 0 as late", -4, "line 2 was refused")

    def test_label_of_a_line_that_emitted_too_few_frames(self) -> None:
        self.assert_missing("break 0 0 as late", 0, "line 2 emitted no frame")
        self.assert_missing("break 0 0 as first late", 1, "line 2 emitted 1 frame")
        self.assert_missing("break 0 0 as a b c late", 3, "line 2 emitted 3 frames")

    def test_label_that_is_missing_in_an_early_run_only(self) -> None:
        """A wrong number makes a line emit nothing; with the right one it emits its frame."""
        script = "announce 0 1 as a\nannounce 0 1 as b\ndeliver b 0 as c\ndeliver c 0\n"
        outputs = {0: b"5 0 2\n5 0 1\n6 25 0\n6 0 0\n", 1: b"5 0 2\n5 0 1\n6 0 1\n6 0 0\n"}

        def bench(octets: bytes) -> bytes:
            """Refuses the first delivery unless it is of frame 2."""
            lines = outputs[int(octets[13] == 2)].splitlines(keepends=True)
            return b"".join(lines[: len(benchscript.split_into_steps(octets)[0])])

        played = benchscript.play(read(script), bench)
        self.assertTrue(played.is_whole)
        self.assertEqual(played.compiled.octets[12:], bytes.fromhex("06020000 06030000"))

    def test_fault_before_a_missing_label(self) -> None:
        self.emit(0, 1)
        script = "announce 0 1 as late\ndeliver 9 0\ndeliver late 0\n"
        status, lines, _ = self.run_script(script)
        why = "ends the run at line 2 (octet 6): there is no frame 9 (0 frames so far)"
        self.assertEqual((status, lines[1]), (1, f"deliver 9 0 {why}"))
        self.assertEqual(lines[2:], ["what follows was not run"])

    def test_bench_that_changes_its_mind(self) -> None:
        counts = iter([0, 2] * 50)

        def bench(octets: bytes) -> bytes:
            steps, _ = benchscript.split_into_steps(octets)
            return f"5 0 {next(counts)}\n5 0 1\n6 0 0\n".encode()[: 6 * len(steps)]

        script = read("announce 0 1\nannounce 0 1 as a\ndeliver a 0\n")
        with self.assertRaises(benchscript.Complaint) as raised:
            benchscript.play(script, bench)
        self.assertEqual(raised.exception.status, 1)
        expected = "my.bench: the bench does not do the same on the same octets"
        self.assertEqual(str(raised.exception), expected)

    def test_numbers_beyond_two_octets(self) -> None:
        """The bench ends long before; the guess must not be in the way."""
        script = "repeat 70000 announce 0 1\nannounce 0 1 as far\ndeliver far 0\n"
        played = benchscript.play(read(script), lambda _: b"5 0 1\n" * 128 + b"E 768\n")
        self.assertEqual(played.compiled.octets[-4:], bytes.fromhex("06ffff00"))

    def test_scripts_without_labels_need_no_bench_for_their_octets(self) -> None:
        done = call("octets", "--bench", self.bench, self.script)
        self.assertEqual((done.returncode, done.stdout.hex()), (0, "0201000000080000"))

    def test_label_after_octets_of_no_whole_command(self) -> None:
        why = "an 'octets' line above has no whole commands, so no label can follow"
        for octets in ("07 00", "09", "05 00 01 00 00"):
            for line in ("deliver a 0", "announce 0 1 as b"):
                with self.subTest(octets=octets, line=line):
                    with self.assertRaises(benchscript.Complaint) as raised:
                        read(f"announce 0 1 as a\noctets {octets}\nwalk 0 0\n{line}\n")
                    self.assertEqual(str(raised.exception), f"my.bench:4: {why}")
                    self.assertEqual(raised.exception.status, 2)
        read("announce 0 1 as a\noctets 02 01 00\noctets 00 00\ndeliver a 0")


BAD_LABELS = {
    "deliver late 0": "no line before this one defines the label 'late'",
    "repeat 2 deliver late 0": "no line before this one defines the label 'late'",
    "deliver late 0 as late": "no line before this one defines the label 'late'",
    "announce 0 1 as known": "line 1 defines the label 'known' already",
    "announce 0 1 as a b a": "line 2 defines the label 'a' already",
    "announce 0 1 as": "no label follows 'as'",
    "announce 0 1 as Late": "'Late' is no label; "
    "a label begins with a letter a to z; then letters, digits, '-' or '_' follow",
    "announce 0 1 as as": "'as' is no label; "
    "a label begins with a letter a to z; then letters, digits, '-' or '_' follow",
    "announce 0 1 as 2nd": "'2nd' is no label; "
    "a label begins with a letter a to z; then letters, digits, '-' or '_' follow",
    "announce 0 1 as a, b": "'a,' is no label; "
    "a label begins with a letter a to z; then letters, digits, '-' or '_' follow",
    "deliver Late 0": "FRAME 'Late' is neither a decimal number nor a label",
    "deliver -1 0": "FRAME '-1' is neither a decimal number nor a label",
    "deliver known": "wrong number of operands; expected 'deliver FRAME POINT'",
    "deliver known known": "POINT 'known' is not a decimal number",
    "walk known 0": "START 'known' is not a decimal number",
    "announce as a": "wrong number of operands; expected 'announce POINT LIFETIME'",
    "walk 0 1 as a": "'walk' emits no frame, so it takes no label",
    "point 02:00:00:00:00:01 0 as a": "'point' emits no frame, so it takes no label",
    "octets 05 00 01 00 00 00 as a": "an 'octets' line takes no label",
    "repeat 2 announce 0 1 as a": "a repeated line takes no label",
    "repeat 1 announce 0 1 as a b": "a repeated line takes no label",
    "as a": "unknown word 'as'; the words are point, advance, link, ask, announce, deliver, "
    "break, walk, octets, repeat",
}


class BadLabels(unittest.TestCase):
    def test_message_for_each_bad_line(self) -> None:
        for line, message in BAD_LABELS.items():
            with self.subTest(line):
                with self.assertRaises(benchscript.Complaint) as raised:
                    read(f"announce 0 1 as known\n{line}\nannounce 0 1 as late\n")
                self.assertEqual(str(raised.exception), f"my.bench:2: {message}")
                self.assertEqual(raised.exception.status, 2)

    def test_good_labels(self) -> None:
        for label in ("a", "late", "z9", "from-0", "a_b-c", "walk", "point"):
            script = read(f"ask 0 0 02:00:00:00:00:01 1 as {label}\ndeliver {label} 0\n")
            self.assertEqual(list(script.labels), [label])


class LinesOfAFile(unittest.TestCase):
    def lines(self, octets: bytes) -> tuple[int, str, str]:
        done = call("lines", "-", given=octets)
        return done.returncode, done.stdout.decode(), done.stderr.decode()

    def test_script(self) -> None:
        complaint = (
            "- is a script already; "
            "'lines' expects the octets that the bench reads, as 'octets' writes them\n"
        )
        for script in (
            b"walk 0 1\n",
            b"# why\r\n\r\n\tpoint 02:00:00:00:00:01 0 # \xe2\x80\x93\r\n",
            b"octets 09 ff",
            b"repeat 3 advance 1",
            b"wlk 0 1\nwalk 0 1\n",
        ):
            with self.subTest(script[:20]):
                self.assertEqual(self.lines(script), (2, "", complaint))

    def test_each_example_is_known_as_a_script_and_its_octets_are_not(self) -> None:
        for script in SCRIPTS:
            with self.subTest(script.name):
                self.assertTrue(benchscript.is_script(script.read_bytes()))
                octets = benchscript.octets_of(benchscript.script_in(str(script)), BENCH)
                self.assertFalse(benchscript.is_script(octets))

    def test_octets_that_are_no_script(self) -> None:
        for octets, line in (
            (b"\x09\xff", "octets 09 ff"),
            (b"\x09", "octets 09"),
            (b"\x0a\x0a", "octets 0a 0a"),
            (b"a b", "octets 61 20 62"),
            (b"walk\x00", "octets 77 61 6c 6b 00"),
            (b"\xffwalk 0", "octets ff 77 61 6c 6b 20 30"),
            (b"walks 0", "octets 77 61 6c 6b 73 20 30"),
        ):
            with self.subTest(line):
                self.assertEqual(self.lines(octets), (0, f"{line}\n", ""))
        self.assertEqual(self.lines(b""), (0, "", ""))

    def test_no_input_of_the_bench_is_taken_for_a_script(self) -> None:
        for code, command in benchscript.COMMANDS.items():
            self.assertFalse(benchscript.is_script(bytes([code]) + b"\nwalk 0 1\n"))
            step = bytes([code]) + b" " * (command.width - 1)
            self.assertFalse(benchscript.is_script(step + b"\nwalk 0 1\n"))


class Version(unittest.TestCase):
    def test_version_of_the_header(self) -> None:
        header = (ROOT / "include" / "hwmp.h").read_text()
        (defined,) = re.findall(r'^#define HWMP_VERSION "([0-9]+\.[0-9]+\.[0-9]+)"$', header, re.M)
        done = call("--version")
        expected = (0, f"benchscript {defined}\n".encode(), b"")
        self.assertEqual((done.returncode, done.stdout, done.stderr), expected)

    def test_header_without_version(self) -> None:
        with tempfile.NamedTemporaryFile("w") as header:
            header.write('// #define HWMP_VERSION "1.0.0"\n')
            header.flush()
            with (
                patch.object(benchscript, "HEADER", Path(header.name)),
                self.assertRaises(benchscript.Complaint) as raised,
            ):
                benchscript.version()
        expected = f"{header.name} does not define HWMP_VERSION"
        self.assertEqual((raised.exception.status, str(raised.exception)), (1, expected))


class Trying(unittest.TestCase):
    """Runs without proof. Only the first test runs rt, because that takes seconds."""

    def test_the_worked_case_is_as_on_the_proved_bench(self) -> None:
        script = EXAMPLES / "worked.bench"
        ran, tried = call("run", "--bench", BENCH, script), call("try", script)
        self.assertEqual((tried.returncode, tried.stderr), (0, b""))
        *lines, last = tried.stdout.decode().splitlines()
        self.assertEqual(lines, ran.stdout.decode().splitlines())
        self.assertEqual(last, closing_line(script))

    def try_with(self, output: bytes, *scripts: str) -> tuple[int, list[str]]:
        """Tries scripts if each run prints this. Answers the status and the lines printed."""
        with (
            patch.object(benchscript, "bench_output_in", lambda root, octets: output),
            patch("sys.stdout", io.StringIO()) as printed,
        ):
            read_scripts = [benchscript.read_script(f"{n}", s) for n, s in enumerate(scripts)]
            status = benchscript.try_all(read_scripts)
        return status, printed.getvalue().splitlines()

    def test_fault(self) -> None:
        status, lines = self.try_with(b"E 0\n", "walk 0 0\n")
        ends = "ends the run at line 1 (octet 0): there is no point 0 (0 points so far)"
        self.assertEqual((status, lines), (1, [f"walk 0 0   {ends}", closing_line("0")]))

    def test_several_scripts(self) -> None:
        status, lines = self.try_with(b"2 0 0\n", "advance 1", "advance 2")
        shown = ["== 0", "advance 1   accepted", "== 1", "advance 2   accepted"]
        self.assertEqual((status, lines), (0, [*shown, closing_line("0 1")]))

    def test_bad_script_is_told_before_anything_runs(self) -> None:
        with tempfile.NamedTemporaryFile("w") as script:
            script.write("walk 0\n")
            script.flush()
            done = call("try", script.name)
        self.assertEqual((done.returncode, done.stdout), (2, b""))
        self.assertIn(b":1: wrong number of operands", done.stderr)


def closing_line(scripts: object) -> str:
    proved = f"(cd crates/bench && rt run <stdin) && tools/benchscript run {scripts}"
    return f"This ran the code and proved nothing. To run the proved bench: {proved}"


# A bench that emits frames as it is told, and keeps the octets of each run. It knows every point,
# and ends at a frame that is not there.
FRAMES_BENCH = """#!{python}
import pathlib, sys
COUNTS = {counts}
WIDTHS = [0, 11, 5, 7, 13, 6, 4, 3, 3]
octets = sys.stdin.buffer.read()
folder = pathlib.Path(sys.argv[0]).parent
(folder / f"given.{{len(list(folder.glob('given.*')))}}").write_bytes(octets)
frames = step = at = 0
while at < len(octets):
    code = octets[at]
    if code == 6 and octets[at + 1] + 256 * octets[at + 2] >= frames:
        print("E", at)
        break
    count = COUNTS[min(step, len(COUNTS) - 1)]
    print(code, max(0, -count), max(0, count))
    frames += max(0, count)
    step += 1
    at += WIDTHS[code]
"""


class Examples(unittest.TestCase):
    def test_each_script_has_its_expected_output_and_no_other_is_there(self) -> None:
        expected = {output.stem for output in EXAMPLES.glob("*.expected")}
        self.assertEqual({script.stem for script in SCRIPTS}, expected)

    def test_the_bench_prints_what_each_script_expects(self) -> None:
        for script in SCRIPTS:
            with self.subTest(script.name):
                done = call("octets", "--bench", BENCH, script)
                self.assertEqual((done.returncode, done.stderr), (0, b""))
                printed = benchscript.run_bench(BENCH, done.stdout)
                expected = script.with_suffix(".expected")
                self.assertTrue(printed == expected.read_bytes(), f"differs: {expected}")

    def test_the_worked_case_is_that_of_the_program_crate(self) -> None:
        crate = ROOT / "crates" / "bench"
        octets = call("octets", "--bench", BENCH, EXAMPLES / "worked.bench").stdout
        self.assertEqual(octets, (crate / "stdin").read_bytes())
        expected = (EXAMPLES / "worked.expected").read_bytes()
        self.assertEqual(expected, (crate / "stdout").read_bytes())

    def test_run_says_what_each_script_is_there_to_show(self) -> None:
        self.assertEqual({script.stem for script in SCRIPTS}, set(WHAT_SCRIPTS_SHOW))
        for script in SCRIPTS:
            with self.subTest(script.name):
                done = call("run", "--bench", BENCH, script)
                status = int("ends the run" in WHAT_SCRIPTS_SHOW[script.stem])
                self.assertEqual((done.returncode, done.stderr), (status, b""))
                lines = [" ".join(line.split()) for line in done.stdout.decode().splitlines()]
                self.assertIn(WHAT_SCRIPTS_SHOW[script.stem], lines)

    def test_words_of_the_worked_case(self) -> None:
        done = call("run", "--bench", BENCH, EXAMPLES / "worked.bench")
        self.assertEqual(done.stdout.decode().splitlines()[4:], WORKED_FROM_ITS_LAST_LINK)

    def test_two_frames_where_one_has_room(self) -> None:
        """A command that emits two frames when 127 are there ends the run, though one would fit."""
        script = TWO_POINTS + (
            "point 02:00:00:00:00:03 0\nlink 0 1 1\nlink 1 2 1\n"
            "announce 2 9\ndeliver 0 1\n"  # point 1 knows a path to point 2; frames 0 and 1
            "repeat 124 announce 2 9\n"  # frames 2 to 125
            "ask 0 RF 02:00:00:00:00:03 9 as request\n"  # 126; RF: reply and forward
            "deliver request 1\n"
        )
        played = benchscript.play(read(script), lambda octets: benchscript.run_bench(BENCH, octets))
        answers = list(benchscript.answers_in_words(read(script), played))
        offset = len(played.compiled.octets) - 4
        words = f"ends the run at line 10 (octet {offset}): there would be more than 128 frames"
        self.assertEqual(answers[-1], ("deliver request 1", words))
        self.assertEqual(played.compiled.octets[-4:], bytes([6, 126, 0, 1]))


WORKED_FROM_ITS_LAST_LINK = f"""\
link 1 2 20                                  accepted
ask 0 DO 02:00:00:00:00:03 1000 as request   accepted, emits frame 0
deliver request 1 as request-from-1          accepted, emits frame 1
deliver request-from-1 2 as reply            accepted, emits frame 2
deliver reply 1 as reply-from-1              accepted, emits frame 3
deliver reply-from-1 0                       accepted, emits no frame
walk 0 2                                     arrives after 2 hops
deliver reply-from-1 0                       refused 25: {STALE}
""".splitlines()

# A line that the tool prints for each script, with single spaces.
WHAT_SCRIPTS_SHOW = {
    "bad_frame": "deliver 2 0 ends the run at line 9 (octet 39): "
    "there is no frame 2 (2 frames so far)",
    "bad_point": "link 1 2 10 ends the run at line 8 (octet 29): "
    "there is no point 2 (2 points so far)",
    "broken_row": "walk 1 2 stops after 1 hop (41: no active row there)",
    "clock": "advance 1 ends the run at line 15 (octet 327727): the clock would pass 2^48 - 1",
    "cut": "octets 04 00 01 02 00 00 00 00 03 e8 03 00 ends the run at line 7 (octet 16): "
    "the input ends inside 'ask POINT FLAGS ADDRESS LIFETIME'",
    "equal_number": f"deliver answer 0 refused 25: {STALE}",
    "frames": "break 1 0 ends the run at line 14 (octet 809): there would be more than 128 frames",
    "goes_round": "walk 0 2 goes round: 4 hops without arriving (42: as many hops as points)",
    "no_route": "walk 0 2 stops after 0 hops (41: no active row there)",
    "points": "point 02:00:00:00:00:11 0 ends the run at line 28 (octet 207): "
    "there are 16 points already, the most there can be",
    "unheard_of": f"deliver late 0 refused 25: {STALE}",
    "unknown": "octets 09 ends the run at line 7 (octet 29): "
    "there is no command 9",
    "worked": "walk 0 2 arrives after 2 hops",
    "wrap": f"deliver old-from-1 2 refused 25: {STALE}",
}


if __name__ == "__main__":
    print(f"seed {SEED}", file=sys.stderr)
    unittest.main()
