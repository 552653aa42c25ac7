#!/usr/bin/env python3
"""Tests of regge, regge-pack and what they share, and of the table of oracle/compare. Only the class Program needs the built program."""

import contextlib
import importlib.machinery
import importlib.util
import io
import os
import random
import shutil
import struct
import subprocess
import sys
import tempfile
import unittest
from pathlib import Path

sys.dont_write_bytecode = True
ROOT = Path(__file__).resolve().parent.parent
sys.path.insert(0, str(ROOT / "tools"))
import packed

PROGRAM = ROOT / "crates" / "workbench" / "out" / "workbench"
STDIN = ROOT / "crates" / "workbench" / "stdin"

EXAMPLE_TEXT = ROOT / "tests" / "example.txt"
EXAMPLE = bytes.fromhex("0028002000002004006008") + bytes(80)
EXAMPLE_LINES = "".join(
    f"{line}\n"
    for line in [
        "edges 10 triangles 10 tets 5",
        "timelike 0 null 10 spacelike 0",
        *[f"hinge {number} S 401921fb54442d18" for number in range(10)],
        *[f"grad {number} 0000000000000000" for number in range(10)],
    ]
).encode()

# Pentachorons 01234 and 12345 over six vertices; the lengths are 1, 2, .. 14.
TWO_HEAD_BITS = (
    "0000000000110" "00000000000010"
    "000000000000" "000000000001" "000000000010" "000000000011" "000000000100"
    "000000000001" "000000000010" "000000000011" "000000000100" "000000000101"
    "00000"
)  # fmt: skip
TWO = int(TWO_HEAD_BITS, 2).to_bytes(19, "big") + struct.pack(">14d", *range(1, 15))
TWO_TEXT = "vertices 6\npentachoron 0 1 2 3 4\npentachoron 1 2 3 4 5\n" + "".join(
    f"length {length}\n" for length in range(1, 15)
)

MALFORMED = {
    EXAMPLE[:3]: "the header is cut short: 3 of its 4 bytes are there",
    b"": "the header is cut short: 0 of its 4 bytes are there",
    EXAMPLE[:10]: "the vertices are cut short: 10 of the 11 bytes up to their end are there",
    EXAMPLE[:10] + b"\x09" + EXAMPLE[11:]: "a pad bit is set",
    EXAMPLE[:-1]: "it has 90 bytes, and with 10 edge lengths it should have 91",
    EXAMPLE + b"\0": "it has 92 bytes, and with 10 edge lengths it should have 91",
    TWO[:-8]: "it has 123 bytes, and with 14 edge lengths it should have 131",
}

SPECIAL_LENGTHS = [
    0x7FF8000000000000,
    0x7FF8000000000001,
    0x7FF0000000000001,
    0xFFF8000000000000,
    0xFFFFFFFFFFFFFFFF,
    0x7FF0000000000000,
    0xFFF0000000000000,
    0x8000000000000000,
    0x0000000000000001,
    0x800FFFFFFFFFFFFF,
    0x3FB999999999999A,
    0x7FEFFFFFFFFFFFFF,
]


def load(name, path):
    """A script as a module."""
    loader = importlib.machinery.SourceFileLoader(name, str(ROOT / path))
    module = importlib.util.module_from_spec(importlib.util.spec_from_loader(name, loader))
    loader.exec_module(module)
    return module


regge = load("regge", "regge")
compare = load("compare", "oracle/compare")


def run(script, *arguments, data=b"", **options):
    """Runs a script on the data."""
    command = [sys.executable, "-B", str(script), *map(str, arguments)]
    return subprocess.run(command, input=data, capture_output=True, **options)


def random_input(source):
    """A lawful input: special lengths and lengths of any bits."""
    vertex_count = source.choice([5, 6, 9, 40, 4096])
    pentachorons = [tuple(source.sample(range(vertex_count), 5)) for _ in range(source.randrange(8))]
    lengths = [
        source.choice(SPECIAL_LENGTHS) if source.random() < 0.5 else source.getrandbits(64)
        for _ in packed.faces(pentachorons, 2)
    ]
    return packed.Input(vertex_count, pentachorons, lengths)


def lines_of_text(*lines):
    """A text of these lines."""
    return "".join(f"{line}\n" for line in lines)


class Faces(unittest.TestCase):
    def test_two_pentachorons(self):
        both = [(0, 1, 2, 3, 4), (1, 2, 3, 4, 5)]
        edges, triangles = packed.faces(both, 2), packed.faces(both, 3)
        self.assertEqual(edges[:10], [(0, 1), (0, 2), (0, 3), (0, 4), (1, 2), (1, 3), (1, 4), (2, 3), (2, 4), (3, 4)])
        self.assertEqual(edges[10:], [(1, 5), (2, 5), (3, 5), (4, 5)])
        self.assertEqual(triangles[:4], [(0, 1, 2), (0, 1, 3), (0, 1, 4), (0, 2, 3)])
        self.assertEqual(triangles[10:], [(1, 2, 5), (1, 3, 5), (1, 4, 5), (2, 3, 5), (2, 4, 5), (3, 4, 5)])

    def test_vertices_are_sorted_and_faces_met_once(self):
        self.assertEqual(packed.faces([(4, 3, 2, 1, 0)] * 2, 2), packed.faces([(0, 1, 2, 3, 4)], 2))


class Pack(unittest.TestCase):
    def refused(self, line, words, text):
        """The text is refused at this line, with these words."""
        with self.assertRaises(packed.Trouble) as caught:
            packed.parse_text(text)
        self.assertTrue(str(caught.exception).startswith(f"line {line}: "), caught.exception)
        self.assertIn(words, str(caught.exception))

    def test_example(self):
        self.assertEqual(packed.pack_text(EXAMPLE_TEXT.read_bytes()), EXAMPLE)

    def test_two_pentachorons(self):
        self.assertEqual(packed.pack_text(TWO_TEXT.encode()), TWO)

    def test_no_pentachoron(self):
        self.assertEqual(packed.pack_text(b"vertices 5"), bytes.fromhex("00280000"))

    def test_words_for_lengths(self):
        for word, bits in {
            "1": 0x3FF0000000000000,
            "-0.0": 0x8000000000000000,
            "5e-324": 1,
            "inf": 0x7FF0000000000000,
            "-inf": 0xFFF0000000000000,
            "nan": 0x7FF8000000000000,
            "0x7FF0dead0000BEEF": 0x7FF0DEAD0000BEEF,
        }.items():
            self.assertEqual(packed.parse_length(word), bits, word)

    def test_what_the_program_refuses_is_packed(self):
        repeated = packed.pack_text(lines_of_text("vertices 8191", "pentachoron 4095 4095 0 0 0").encode())
        self.assertEqual(repeated.hex(), "fff8003fffffe" + "0" * 9)
        many = packed.pack_text(lines_of_text("vertices 0", *["pentachoron 0 0 0 0 0"] * 16383).encode())
        self.assertEqual(many[:4].hex(), "0007ffe0")

    def test_comments_blank_lines_and_line_ends(self):
        text = "# a\r\n\r\n  vertices\t5 # b\r\nlength 1.5#c\r\n"
        self.assertEqual(packed.parse_text(text), packed.Input(5, [], [0x3FF8000000000000]))

    def test_syntax(self):
        self.refused(2, "'edge' is no item", "vertices 5\nedge 1\n")
        self.refused(1, "wrong count of numbers after 'vertices': 0, not 1", "vertices\n")
        self.refused(2, "wrong count of numbers after 'pentachoron': 4, not 5", "vertices 5\npentachoron 0 1 2 3\n")
        self.refused(3, "wrong count of numbers after 'length': 2, not 1", "vertices 5\n\nlength 1 2\n")
        self.refused(1, "'-1' is no whole number", "vertices -1\n")
        self.refused(1, "'1_0' is no whole number", "vertices 1_0\n")
        self.refused(2, "'one' is neither a decimal nor 0x", "vertices 5\nlength one\n")
        self.refused(2, "'0x3ff' is neither a decimal nor 0x", "vertices 5\nlength 0x3ff\n")

    def test_what_the_format_cannot_hold(self):
        self.refused(1, "'8192' is no whole number from 0 to 8191", "vertices 8192\n")
        self.refused(1, "'99999' is no whole number", "vertices 99999\n")
        self.refused(2, "'4096' is no whole number from 0 to 4095", "vertices 5\npentachoron 0 1 2 3 4096\n")
        many = lines_of_text("vertices 5", *["pentachoron 0 1 2 3 4"] * 16384)
        self.refused(16385, "more than 16383 pentachorons", many)

    def test_order(self):
        self.refused(3, "the text ends with no 'vertices'", "# nothing\n\n")
        self.refused(1, "'length' is out of order: here stands 'vertices'", "length 1.0\nvertices 5\n")
        self.refused(2, "'vertices' is out of order", "vertices 5\nvertices 5\n")
        self.refused(3, "'pentachoron' is out of order", "vertices 5\nlength 1.0\npentachoron 0 1 2 3 4\n")

    def test_text_that_is_not_utf8(self):
        with self.assertRaisesRegex(packed.Trouble, "line 2: the text is not UTF-8"):
            packed.pack_text(b"vertices 5\n# \xff\n")


class Unpack(unittest.TestCase):
    def test_example(self):
        lines = EXAMPLE_TEXT.read_text().split("\n")
        written = [line for line in lines if line and not line.startswith("#")]
        self.assertEqual(packed.write_text(packed.unpack(EXAMPLE)), lines_of_text(*written))

    def test_special_lengths(self):
        self.assertEqual(
            [packed.length_word(bits) for bits in SPECIAL_LENGTHS],
            [
                "0x7ff8000000000000",
                "0x7ff8000000000001",
                "0x7ff0000000000001",
                "0xfff8000000000000",
                "0xffffffffffffffff",
                "inf",
                "-inf",
                "-0.0",
                "5e-324",
                "-2.225073858507201e-308",
                "0.1",
                "1.7976931348623157e+308",
            ],
        )

    def test_round_trip(self):
        source = random.Random(1)
        for data in [EXAMPLE, TWO, *(packed.pack(random_input(source)) for _ in range(200))]:
            self.assertEqual(packed.pack_text(packed.write_text(packed.unpack(data)).encode()), data)

    def test_unlawful_complexes_have_no_edges_named(self):
        for head in [
            "vertices 0",
            "vertices 4097",
            "vertices 5\npentachoron 0 1 2 3 5",
            "vertices 5\npentachoron 0 0 1 2 3",
        ]:
            text = f"{head}\nlength 1.0\nlength 2.0\n"
            self.assertEqual(packed.write_text(packed.unpack(packed.pack_text(text.encode()))), text)

    def test_malformed(self):
        for data, words in MALFORMED.items():
            with self.assertRaises(packed.Refused) as caught:
                packed.unpack(data)
            self.assertEqual(caught.exception.number, 12)
            self.assertIn(words, str(caught.exception))

    def test_too_many_pentachorons(self):
        text = lines_of_text("vertices 5", *["pentachoron 0 1 2 3 4"] * 65, *["length 1.0"] * 10)
        with self.assertRaises(packed.Refused) as caught:
            packed.unpack(packed.pack_text(text.encode()))
        self.assertEqual((caught.exception.number, str(caught.exception)), (13, "there are more than 64 pentachorons"))


class PackScript(unittest.TestCase):
    def test_both_ways(self):
        packing = run(ROOT / "regge-pack", "pack", EXAMPLE_TEXT)
        self.assertEqual((packing.returncode, packing.stdout, packing.stderr), (0, EXAMPLE, b""))
        unpacking = run(ROOT / "regge-pack", "unpack", data=TWO)
        self.assertEqual(unpacking.stderr, b"")
        self.assertEqual(run(ROOT / "regge-pack", "pack", "-", data=unpacking.stdout).stdout, TWO)

    def test_trouble(self):
        for arguments, data, message in [
            (["pack"], b"vertices 5\nlength x\n", b"regge-pack: line 2: 'x' is neither"),
            (["unpack"], EXAMPLE[:3], b"regge-pack: the header is cut short"),
            (["pack", ROOT / "no such file"], b"", b"regge-pack: cannot read "),
        ]:
            done = run(ROOT / "regge-pack", *arguments, data=data)
            self.assertEqual((done.returncode, done.stdout), (2, b""))
            self.assertTrue(done.stderr.startswith(message), done.stderr)

    def test_through_a_link(self):
        with tempfile.TemporaryDirectory() as folder:
            link = Path(folder) / "link"
            link.symlink_to(ROOT / "regge-pack")
            self.assertEqual(run(link, "pack", EXAMPLE_TEXT).stdout, EXAMPLE)


class RefusalWords(unittest.TestCase):
    def test_every_number(self):
        for number, place, words in [
            (1, 0, "refused 1 (the vertex count is 0 or above 4096), place 0"),
            (3, 7, "refused 3 (a vertex is not below the vertex count), pentachoron 7"),
            (4, 0, "refused 4 (a vertex is repeated), pentachoron 0"),
            (13, 0, "refused 13 (there are more than 64 pentachorons), place 0"),
        ]:
            self.assertEqual(packed.refusal_words(number, place, b""), words)

    def test_causes_of_12(self):
        for data, cause in MALFORMED.items():
            words = packed.refusal_words(12, 0, data)
            self.assertTrue(words.startswith("refused 12 (") and words.endswith("), place 0"), words)
            self.assertIn(cause, words)

    def test_12_of_an_input_that_shows_no_cause(self):
        self.assertEqual(
            packed.refusal_words(12, 0, EXAMPLE),
            "refused 12 (the input is cut short, has a pad bit set, or is not ended exactly by its lengths), place 0",
        )


class ReadAndRender(unittest.TestCase):
    def test_example(self):
        answer = regge.read_output(EXAMPLE_LINES)
        self.assertEqual((answer.counts, answer.signs), ((10, 10, 5), (0, 10, 0)))
        self.assertEqual(answer.hinges, [("spacelike", 6.283185307179586)] * 10)
        self.assertEqual(answer.gradient, [0.0] * 10)
        lines = regge.render(answer, packed.unpack(EXAMPLE)).split("\n")
        self.assertEqual(
            lines[:6],
            [
                "10 edges, 10 triangles, 5 tets",
                "Squared lengths: 0 timelike (below zero), 10 null (zero), 0 spacelike (all others)",
                "",
                "Hinges: the triangle's number, its three vertices, its kind, its deficit angle",
                "number  vertices  kind       deficit",
                "     0  0 1 2     spacelike  6.283185307179586",
            ],
        )
        self.assertEqual(
            lines[14:19],
            [
                "     9  2 3 4     spacelike  6.283185307179586",
                "",
                "Gradient of the action: the edge's number, its two vertices, its squared length, its entry",
                "number  vertices  squared length  entry",
                "     0  0 1       0.0             0.0",
            ],
        )
        self.assertEqual(lines[27:], ["     9  3 4       0.0             0.0", ""])

    def test_two_pentachorons(self):
        printed = lines_of_text(
            "edges 14 triangles 16 tets 9",
            "timelike 0 null 0 spacelike 14",
            *[f"hinge {number} S 3ff8000000000000" for number in range(15)],
            "hinge 15 T nan",
            *[f"grad {number} 8000000000000000" for number in range(13)],
            "grad 13 3fb999999999999a",
        )
        lines = regge.render(regge.read_output(printed.encode()), packed.unpack(TWO)).split("\n")
        self.assertIn("    10  1 2 5     spacelike  1.5", lines)
        self.assertIn("    15  3 4 5     timelike   nan", lines)
        self.assertIn("    12  3 5       13.0            -0.0", lines)
        self.assertIn("    13  4 5       14.0            0.1", lines)

    def test_no_pentachoron(self):
        answer = regge.read_output(b"edges 0 triangles 0 tets 0\ntimelike 0 null 0 spacelike 0\n")
        lines = regge.render(answer, packed.unpack(bytes.fromhex("00280000"))).split("\n")
        self.assertEqual(lines[4:6], ["number  vertices  kind  deficit", ""])

    def test_decimals_give_the_bits_again(self):
        source = random.Random(2)
        for bits in [*SPECIAL_LENGTHS[5:], *(source.getrandbits(62) for _ in range(200))]:
            self.assertEqual(packed.to_bits(float(repr(regge.read_double(f"{bits:016x}")))), bits)

    def test_refusal(self):
        self.assertEqual(regge.read_output(b"refused 4 63\n"), regge.Refusal(4, 63))

    def test_what_cannot_be_read(self):
        for old, new in [
            (EXAMPLE_LINES, b""),
            (EXAMPLE_LINES, b"\n"),
            (EXAMPLE_LINES, b"refused 12\n"),
            (EXAMPLE_LINES, b"refused 5 0\n"),
            (EXAMPLE_LINES, EXAMPLE_LINES[:-1]),
            (EXAMPLE_LINES, EXAMPLE_LINES + b"grad"),
            (b"edges 10", b"edges 11"),
            (b"edges 10", b"edges  10"),
            (b"timelike 0", b"timelike \xc3"),
            (b"hinge 3 S", b"hinge 4 S"),
            (b"hinge 3 S", b"hinge 3 L"),
            (b"hinge 9 S 401921fb54442d18", b"hinge 9 S 401921FB54442D18"),
            (b"grad 0 0000000000000000", b"grad 0 000000000000000"),
            (b"grad 0 0000000000000000", b"grad 0 00000000000000000"),
            (b"grad 3 ", b"grad 4 "),
            (b"grad 9 0000000000000000\n", b""),
            (b"grad 9 0000000000000000\n", b"grad 9 0000000000000000\ngrad 10 0000000000000000\n"),
        ]:
            self.assertEqual(EXAMPLE_LINES.count(old), 1, old)
            with self.assertRaises(packed.Trouble, msg=new):
                regge.read_output(EXAMPLE_LINES.replace(old, new))

    def test_answer_to_another_input(self):
        with self.assertRaisesRegex(packed.Trouble, "counts other edges or triangles"):
            regge.render(regge.read_output(EXAMPLE_LINES), packed.unpack(TWO))
        with self.assertRaisesRegex(packed.Trouble, "an input that it should refuse: the header is cut short"):
            regge.answered_input(b"")


class ReggeScript(unittest.TestCase):
    """The script in a folder of its own, over stand-ins of rt and of the program."""

    def setUp(self):
        folder = tempfile.TemporaryDirectory()
        self.addCleanup(folder.cleanup)
        self.root = Path(folder.name)
        for name in ["regge", "tools/packed.py"]:
            (self.root / name).parent.mkdir(exist_ok=True)
            shutil.copy(ROOT / name, self.root / name)
        self.put("crates/workbench/stdin", EXAMPLE)
        self.prints(EXAMPLE_LINES)
        self.put("bin/rt", b'#!/bin/sh\necho "fn proved"\necho "rt: $*"\nmkdir -p out\ncp ../../program out/workbench\n')

    def put(self, name, content):
        """Writes a file of the folder, which can be run."""
        path = self.root / name
        path.parent.mkdir(parents=True, exist_ok=True)
        path.write_bytes(content)
        path.chmod(0o755)

    def prints(self, output, status=0):
        """Makes a stand-in of the program that keeps its input and prints this output."""
        self.put("output", output)
        self.put("program", f'#!/bin/sh\ncd "{self.root}"\ncat > seen\ncat output\nexit {status}\n'.encode())

    def regge(self, *arguments, data=b"", script="regge", has_rt=True):
        """Runs the script, with the stand-in of rt on PATH or with no rt at all."""
        search = f"{self.root / 'bin'}{os.pathsep}{os.defpath}" if has_rt else str(self.root / "tools")
        return run(self.root / script, *arguments, data=data, env={"PATH": search})

    def test_example(self):
        done = self.regge()
        self.assertEqual((done.returncode, done.stderr), (0, b"rt: run\n"))
        self.assertEqual(done.stdout.decode(), regge.render(regge.read_output(EXAMPLE_LINES), packed.unpack(EXAMPLE)))
        self.assertEqual((self.root / "seen").read_bytes(), EXAMPLE)

    def test_built_anew_with_no_file_only(self):
        self.put("crates/workbench/out/workbench", b"#!/bin/sh\necho refused 1 0\n")
        self.assertEqual(self.regge("--raw", "-").stdout, b"refused 1 0\n")
        self.assertEqual(self.regge("--raw").stdout, EXAMPLE_LINES)

    def test_built_where_missing(self):
        done = self.regge("-", data=EXAMPLE)
        self.assertEqual((done.returncode, done.stderr), (0, b"rt: run\n"))

    def test_file_and_text(self):
        self.assertEqual(self.regge(self.root / "crates/workbench/stdin").returncode, 0)
        self.assertEqual((self.root / "seen").read_bytes(), EXAMPLE)
        (self.root / "seen").unlink()
        self.assertEqual(self.regge("--text", EXAMPLE_TEXT).returncode, 0)
        self.assertEqual((self.root / "seen").read_bytes(), EXAMPLE)
        self.assertEqual(self.regge("--text", "--raw", "-", data=TWO_TEXT.encode()).stdout, EXAMPLE_LINES)
        self.assertEqual((self.root / "seen").read_bytes(), TWO)

    def test_through_a_link(self):
        (self.root / "bin" / "link").symlink_to(self.root / "regge")
        self.assertEqual(self.regge("--raw", script="bin/link").stdout, EXAMPLE_LINES)

    def test_refusal(self):
        self.prints(b"refused 3 7\n")
        done = self.regge("-", data=TWO)
        words = b"refused 3 (a vertex is not below the vertex count), pentachoron 7\n"
        self.assertEqual((done.returncode, done.stdout), (1, b""))
        self.assertTrue(done.stderr.endswith(words), done.stderr)
        done = self.regge("--raw", "-", data=TWO)
        self.assertEqual((done.returncode, done.stdout), (0, b"refused 3 7\n"))

    def test_raw_is_byte_for_byte(self):
        self.prints(b"\xff\r\nno line")
        self.assertEqual(self.regge("--raw", "-").stdout, b"\xff\r\nno line")

    def trouble(self, words, *arguments, **options):
        """Runs the script, which is to say these words on standard error, print nothing and end with status 2."""
        done = self.regge(*arguments, **options)
        self.assertEqual((done.returncode, done.stdout), (2, b""))
        self.assertIn(words, done.stderr)

    def test_output_that_cannot_be_read(self):
        self.prints(b"nothing\nof the kind\n")
        self.trouble(b"regge: the program printed a line that cannot be read: 'nothing'", "-")

    def test_program_that_fails(self):
        self.prints(EXAMPLE_LINES, status=3)
        self.trouble(b"regge: the program ended with status 3", "-", data=EXAMPLE)

    def test_no_rt(self):
        self.trouble(b"regge: rt is not found", has_rt=False)

    def test_rt_that_fails(self):
        self.put("bin/rt", b"#!/bin/sh\nexit 5\n")
        self.trouble(b"regge: 'rt run' ended with status 5")

    def test_rt_that_builds_nothing(self):
        self.put("bin/rt", b"#!/bin/sh\n")
        self.trouble(b"regge: cannot run ")

    def test_inputs_that_cannot_be_read(self):
        self.trouble(b"regge: cannot read ", self.root / "no such file")
        self.trouble(b"regge: cannot read ", self.root)
        self.trouble(b"regge: line 1: 'x' is no item", "--text", "-", data=b"x")
        self.trouble(b"--text takes a FILE", "--text")


@unittest.skipUnless(STDIN.exists(), "the crate workbench is not there")
class BuiltInExample(unittest.TestCase):
    def test_bytes(self):
        self.assertEqual(STDIN.read_bytes(), EXAMPLE)


def table_lines():
    """Lines for the table of oracle/compare that lack nothing."""
    names = compare.declared() + compare.of_crate() + [compare.PROGRAM]
    measured = [name for name in names if not compare.no_distance(name)]
    distances = [(name, "others") for name in measured] + [(name, "lattices") for name in compare.ON_LATTICES]
    return [f"table: calls {name} 10 5 0" for name in names] + [
        f"table: distance {name} {inputs} 1.5e-9 7 0 0" for name, inputs in distances
    ]


class Table(unittest.TestCase):
    """What oracle/compare makes of the logs of its rounds."""

    def gathered(self, *rounds):
        """The comparison of some rounds, each the lines of one part's log, how many calls differ, and what was printed."""
        found, printed = compare.Compare(1), io.StringIO()
        with contextlib.redirect_stdout(printed):
            for seed, lines in enumerate(rounds):
                found.gather("part", seed, "\n".join(lines))
            differences = found.print_table()
            found.expect_all()
        return found, differences, printed.getvalue()

    def test_whole(self):
        lines = table_lines()
        found, differences, printed = self.gathered(lines, [*lines, "left out: V8"])
        self.assertEqual((found.failures, differences), ([], 0))
        self.assertIn("left out: V8", printed)
        self.assertEqual((found.operations["root"].calls, found.operations["root"].answered), (20, 10))

    def test_each_line_is_missed(self):
        lines = table_lines()
        for place in range(len(lines)):
            without = lines[:place] + lines[place + 1 :]
            self.assertTrue(self.gathered(without)[0].failures, lines[place])
            self.assertTrue(self.gathered(lines, without)[0].failures, lines[place])

    def test_lines_that_say_too_little(self):
        lines = table_lines()
        for line in ["table: calls root 10 0 0", "table: calls root 10", "table: calls root ten 5 0"]:
            self.assertTrue(self.gathered([line, *lines[1:]])[0].failures, line)
        self.assertTrue(self.gathered([])[0].failures)

    def test_differences(self):
        found, differences, _ = self.gathered(["table: calls root 10 5 3", *table_lines()[1:]])
        self.assertEqual((differences, found.failures), (3, []))

    def test_commands_that_fail(self):
        found = compare.Compare(1)
        with tempfile.TemporaryDirectory() as folder, contextlib.redirect_stdout(io.StringIO()):
            log = Path(folder) / "log"
            self.assertTrue(found.run("part", log, ["true"], {}))
            self.assertFalse(found.run("part", log, ["false"], {}))
            self.assertFalse(found.run("part", log, [Path(folder) / "absent"], {}))
        self.assertEqual(len(found.failures), 2)


@unittest.skipUnless(PROGRAM.exists(), "the program is not built")
class Program(unittest.TestCase):
    def test_example(self):
        self.assertEqual(regge.run_program(EXAMPLE), EXAMPLE_LINES)

    def test_random_inputs(self):
        source = random.Random(3)
        for _ in range(20):
            given = random_input(source)
            answer = regge.read_output(regge.run_program(packed.pack(given)))
            edge_count, triangle_count = (len(packed.faces(given.pentachorons, size)) for size in (2, 3))
            self.assertEqual(answer.counts[:2], (edge_count, triangle_count))
            self.assertEqual(sum(answer.signs), edge_count)

    def test_refusals(self):
        for data in MALFORMED:
            self.assertEqual(regge.run_program(data), b"refused 12 0\n")
        for text, line in [
            ("vertices 0", b"refused 1 0\n"),
            ("vertices 4097", b"refused 1 0\n"),
            ("vertices 5\npentachoron 0 1 2 3 4\npentachoron 0 0 1 2 5", b"refused 3 1\n"),
            ("vertices 5\npentachoron 0 0 1 2 3", b"refused 4 0\n"),
            ("vertices 0" + "\npentachoron 0 0 0 0 0" * 65, b"refused 13 0\n"),
        ]:
            self.assertEqual(regge.run_program(packed.pack_text(text.encode())), line)


if __name__ == "__main__":
    unittest.main()
