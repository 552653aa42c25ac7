"""The program's packed input and its text, the numbering of faces, the words for refusals, and what the scripts share."""

import itertools
import os
import re
import struct
import sys
from typing import NamedTuple

VERTEX_COUNT_BITS = 13
PENTACHORON_COUNT_BITS = 14
HEADER_BITS = VERTEX_COUNT_BITS + PENTACHORON_COUNT_BITS
VERTEX_BITS = 12
LENGTH_BYTES = 8

MOST_VERTICES = 4096
MOST_PENTACHORONS = 64

WORDS = {
    1: f"the vertex count is 0 or above {MOST_VERTICES}",
    3: "a vertex is not below the vertex count",
    4: "a vertex is repeated",
    12: "the input is cut short, has a pad bit set, or is not ended exactly by its lengths",
    13: f"there are more than {MOST_PENTACHORONS} pentachorons",
}
AT_A_PENTACHORON = (3, 4)

# What may follow each item of a text; "" stands for its start.
FOLLOWERS = {
    "": ("vertices",),
    "vertices": ("pentachoron", "length"),
    "pentachoron": ("pentachoron", "length"),
    "length": ("length",),
}


class Trouble(Exception):
    """What keeps a script from its work: said on standard error, with exit status 2."""


class Refused(Trouble):
    """Bytes that the program refuses with 12 or 13; the message is the cause."""

    def __init__(self, number, cause):
        super().__init__(cause)
        self.number = number


class Input(NamedTuple):
    """The program's input. A squared length is held as its 64 bits, so that every NaN is kept as it is."""

    vertex_count: int
    pentachorons: list
    lengths: list


def to_double(bits):
    """The double of 64 bits."""
    return struct.unpack(">d", bits.to_bytes(LENGTH_BYTES, "big"))[0]


def to_bits(double):
    """The 64 bits of a double."""
    return int.from_bytes(struct.pack(">d", double), "big")


def faces(pentachorons, size):
    """The edges (size 2) or triangles (size 3) of a complex, in the order of their first meeting."""
    return list(dict.fromkeys(face for each in pentachorons for face in itertools.combinations(sorted(each), size)))


def is_lawful(vertex_count, pentachorons):
    """Whether the builder accepts the complex: none of its refusals 1, 3 and 4."""
    return 0 < vertex_count <= MOST_VERTICES and all(
        max(each) < vertex_count and len(set(each)) == 5 for each in pentachorons
    )


def bytes_for(bits):
    """How many bytes hold so many bits."""
    return (bits + 7) // 8


def head_bits(pentachoron_count):
    """How many bits the header and the vertices take."""
    return HEADER_BITS + pentachoron_count * 5 * VERTEX_BITS


def pack(given):
    """The bytes of an input."""
    fields = [(given.vertex_count, VERTEX_COUNT_BITS), (len(given.pentachorons), PENTACHORON_COUNT_BITS)]
    fields += [(vertex, VERTEX_BITS) for each in given.pentachorons for vertex in each]
    bits = "".join(f"{value:0{width}b}" for value, width in fields)
    size = bytes_for(len(bits))
    head = int(bits.ljust(8 * size, "0"), 2).to_bytes(size, "big")
    return head + b"".join(length.to_bytes(LENGTH_BYTES, "big") for length in given.lengths)


def unpack(data):
    """The input of the bytes, or Refused; an unlawful complex, which asks for no number of lengths, may have any."""
    vertex_count, pentachoron_count = unpack_header(data)
    pentachorons = unpack_pentachorons(data, pentachoron_count)
    start = bytes_for(head_bits(pentachoron_count))
    lawful = is_lawful(vertex_count, pentachorons)
    length_count = len(faces(pentachorons, 2)) if lawful else (len(data) - start) // LENGTH_BYTES
    return Input(vertex_count, pentachorons, unpack_lengths(data, start, length_count))


def unpack_header(data):
    """The vertex count and the pentachoron count."""
    size = bytes_for(HEADER_BITS)
    if len(data) < size:
        raise Refused(12, f"the header is cut short: {len(data)} of its {size} bytes are there")
    bits = bit_string(data[:size])
    pentachoron_count = int(bits[VERTEX_COUNT_BITS:HEADER_BITS], 2)
    if pentachoron_count > MOST_PENTACHORONS:
        raise Refused(13, WORDS[13])
    return int(bits[:VERTEX_COUNT_BITS], 2), pentachoron_count


def unpack_pentachorons(data, count):
    """The pentachorons as they are written, each five vertices."""
    end = head_bits(count)
    size = bytes_for(end)
    if len(data) < size:
        raise Refused(12, f"the vertices are cut short: {len(data)} of the {size} bytes up to their end are there")
    bits = bit_string(data[:size])
    if "1" in bits[end:]:
        raise Refused(12, "a pad bit is set: between the vertices and the lengths every bit must be zero")
    vertices = [int(bits[at : at + VERTEX_BITS], 2) for at in range(HEADER_BITS, end, VERTEX_BITS)]
    return [tuple(vertices[at : at + 5]) for at in range(0, len(vertices), 5)]


def unpack_lengths(data, start, count):
    """The bits of the lengths, which are to end the bytes exactly."""
    size = start + count * LENGTH_BYTES
    if len(data) != size:
        raise Refused(
            12,
            "the lengths do not end the input exactly: "
            f"it has {len(data)} bytes, and with {count} edge lengths it should have {size}",
        )
    return [int.from_bytes(data[at : at + LENGTH_BYTES], "big") for at in range(start, size, LENGTH_BYTES)]


def bit_string(data):
    """The bits of bytes as characters, most significant first."""
    return "".join(f"{byte:08b}" for byte in data)


def refusal_words(number, place, data):
    """A refusal of the program in words, beside its number and place."""
    words = malformed_words(data) if number == 12 else WORDS[number]
    place_name = "pentachoron" if number in AT_A_PENTACHORON else "place"
    return f"refused {number} ({words}), {place_name} {place}"


def malformed_words(data):
    """Which cause of refusal 12 the bytes show; all of them, where they show none."""
    try:
        unpack(data)
    except Refused as refused:
        if refused.number == 12:
            return str(refused)
    return WORDS[12]


def parse_text(text):
    """The input that a text writes, one item a line."""
    values = {keyword: [] for keyword in FOLLOWERS}
    before = ""
    lines = text.split("\n")
    for number, line in enumerate(lines, 1):
        words = line.split("#", 1)[0].split()
        if not words:
            continue
        try:
            value = parse_item(words)
            check_order(before, words[0], len(values["pentachoron"]))
        except ValueError as error:
            raise Trouble(f"line {number}: {error}") from None
        before = words[0]
        values[before].append(value)
    if not before:
        raise Trouble(f"line {len(lines)}: the text ends with no 'vertices'")
    return Input(values["vertices"][0], values["pentachoron"], values["length"])


def parse_item(words):
    """The value of one item; a ValueError says what is wrong with it."""
    keyword, *fields = words
    if keyword not in FOLLOWERS:
        raise ValueError(f"'{keyword}' is no item: an item is 'vertices', 'pentachoron' or 'length'")
    wanted = 5 if keyword == "pentachoron" else 1
    if len(fields) != wanted:
        raise ValueError(f"wrong count of numbers after '{keyword}': {len(fields)}, not {wanted}")
    if keyword == "vertices":
        return parse_whole(fields[0], VERTEX_COUNT_BITS)
    if keyword == "pentachoron":
        return tuple(parse_whole(field, VERTEX_BITS) for field in fields)
    return parse_length(fields[0])


def check_order(before, keyword, pentachoron_count):
    """A ValueError where the item may not follow the one before it, or is one pentachoron too many."""
    if keyword not in FOLLOWERS[before]:
        raise ValueError(f"'{keyword}' is out of order: here stands {' or '.join(map(repr, FOLLOWERS[before]))}")
    if keyword == "pentachoron" and pentachoron_count + 1 >= 1 << PENTACHORON_COUNT_BITS:
        raise ValueError(f"more than {pentachoron_count} pentachorons cannot be written")


def parse_whole(word, width):
    """The whole number that a word writes; a ValueError where so many bits, at most 13, cannot hold it."""
    match = re.fullmatch("0*([0-9]{1,4})", word)
    if match is None or int(match[1]) >> width:
        raise ValueError(f"'{word}' is no whole number from 0 to {(1 << width) - 1}")
    return int(match[1])


def parse_length(word):
    """The bits of the length that a word writes."""
    if re.fullmatch("0x[0-9a-fA-F]{16}", word):
        return int(word, 16)
    try:
        return to_bits(float(word))
    except ValueError:
        raise ValueError(f"'{word}' is neither a decimal nor 0x with 16 hex digits") from None


def write_text(given):
    """The text of an input that was unpacked."""
    lines = [f"vertices {given.vertex_count}"]
    lines += [f"pentachoron {spaced(each)}" for each in given.pentachorons]
    lengths = zip(given.lengths, edge_comments(given), strict=True)
    lines += [f"length {length_word(length)}{comment}" for length, comment in lengths]
    return "".join(f"{line}\n" for line in lines)


def edge_comments(given):
    """A comment for each length, which names its edge; nothing where the complex is unlawful."""
    if not is_lawful(given.vertex_count, given.pentachorons):
        return [""] * len(given.lengths)
    return [f"  # edge {number}: {spaced(edge)}" for number, edge in enumerate(faces(given.pentachorons, 2))]


def length_word(bits):
    """A length as a word that gives the same bits again: a decimal, or for a NaN its bits."""
    double = to_double(bits)
    return f"0x{bits:016x}" if double != double else repr(double)


def spaced(numbers):
    """Numbers with a space between each two."""
    return " ".join(map(str, numbers))


def pack_text(data):
    """The packed bytes of a text's bytes."""
    try:
        text = data.decode("utf-8")
    except UnicodeDecodeError as error:
        line = data[: error.start].count(b"\n") + 1
        raise Trouble(f"line {line}: the text is not UTF-8") from None
    return pack(parse_text(text))


def read_bytes(name):
    """The bytes of the named file, or of standard input for '-'."""
    try:
        with open(0 if name == "-" else name, "rb", closefd=name != "-") as file:
            return file.read()
    except OSError as error:
        raise Trouble(f"cannot read {'standard input' if name == '-' else name}: {error.strerror}") from None


def write_bytes(data):
    """Writes bytes to standard output; a reader that has gone away is no trouble."""
    try:
        sys.stdout.buffer.write(data)
        sys.stdout.buffer.flush()
    except BrokenPipeError:
        os.dup2(os.open(os.devnull, os.O_WRONLY), sys.stdout.fileno())


def run_script(name, main):
    """Ends the script with the status that main returns, or with 2 and a message where there is trouble."""
    try:
        sys.exit(main())
    except Trouble as trouble:
        print(f"{name}: {trouble}", file=sys.stderr)
        sys.exit(2)
    except KeyboardInterrupt:
        sys.exit(130)
