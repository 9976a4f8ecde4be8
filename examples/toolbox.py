"""What the tools in this folder share: how a tool ends, the palette, the dumps of a transcript, and PNG files."""

import os
import re
import struct
import sys
import zlib

HERE = os.path.dirname(os.path.abspath(__file__))
TOP = os.path.dirname(HERE)
PROGRAM = os.path.join(TOP, "crates", "dope", "out", "dope")
PALETTE = os.path.join(HERE, "palette.gpl")
SIGNATURE = b"\x89PNG\r\n\x1a\n"


class Trouble(Exception):
    """What a tool can't do, in one line for its user."""


def run_tool(name, help_text, work):
    """Runs a tool with the words behind its name. Trouble is one line on standard error and exit status 1."""
    words = sys.argv[1:]
    if words in (["-h"], ["--help"]):
        print(help_text.strip())
        return
    try:
        work(words)
        sys.stdout.flush()
    except Trouble as trouble:
        sys.exit(f"{name}: {trouble}")
    except BrokenPipeError:
        os.dup2(os.open(os.devnull, os.O_WRONLY), sys.stdout.fileno())
        sys.exit(f"{name}: nobody reads what it writes")
    except OSError as error:
        sys.exit(f"{name}: {error.filename or 'the output'}: {error.strerror}")


def number(word, what, least, most):
    """The whole number that a word writes."""
    if not re.fullmatch(r"-?[0-9]{1,9}", word):
        raise Trouble(f"{what} is a whole number from {least:,} to {most:,}, not {word!r}")
    if not least <= int(word) <= most:
        raise Trouble(f"{what} is from {least:,} to {most:,}, not {int(word):,}")
    return int(word)


def bytes_in(path):
    """The bytes of a file, or of standard input where the path is `-`."""
    if path == "-":
        return sys.stdin.buffer.read()
    with open(path, "rb") as file:
        return file.read()


def write_whole(path, data):
    """Writes a file whole or not at all: into a file beside it, which then takes its name."""
    if os.path.exists(path) and not os.path.isfile(path):
        with open(path, "wb") as file:
            file.write(data)
        return
    beside = f"{path}.part"
    try:
        with open(beside, "wb") as file:
            file.write(data)
        os.replace(beside, path)
    except OSError as error:
        if os.path.exists(beside):
            os.remove(beside)
        raise Trouble(f"{path}: {error.strerror}") from None


def palette_and_rest(words):
    """The palette of the words `--palette FILE`, where they come first, else the one beside this file; and the rest."""
    if words[:1] != ["--palette"]:
        return palette_in(PALETTE), words
    if len(words) < 2:
        raise Trouble("--palette wants the name of a .gpl file behind it")
    return palette_in(words[1]), words[2:]


def palette_in(path):
    """The colours of a palette file: red, green and blue, 0 to 255 each, for the numbers from 0 on."""
    lines = bytes_in(path).decode("utf-8", "replace").splitlines()
    if not lines or lines[0].strip() != "GIMP Palette":
        raise Trouble(f"{path}: no .gpl palette: its first line isn't `GIMP Palette`")
    colours = []
    for at, line in enumerate(lines[1:], 2):
        if not line.strip() or line.lstrip().startswith("#") or re.match(r"(Name|Columns):", line):
            continue
        parts = re.match(r"\s*(\d{1,3})\s+(\d{1,3})\s+(\d{1,3})(\s|$)", line)
        if not parts or max(map(int, parts.groups()[:3])) > 255:
            raise Trouble(f"{path}: line {at} isn't a colour: three numbers from 0 to 255")
        colours.append(tuple(map(int, parts.groups()[:3])))
    if not 1 <= len(colours) <= 256:
        raise Trouble(f"{path}: a palette has 1 to 256 colours, not {len(colours)}")
    return colours


def transcript_of(name):
    """The transcript of an example, or the one on standard input where the name is `-`."""
    if name == "-":
        return bytes_in("-")
    path = os.path.join(HERE, name, "transcript")
    if not os.path.isfile(path):
        raise Trouble(f"{name!r} is no example; there are {', '.join(examples())}, and - for standard input")
    return bytes_in(path)


def examples():
    """The names of the examples."""
    return sorted(it for it in os.listdir(HERE) if os.path.isfile(os.path.join(HERE, it, "script")))


def dumps_in(transcript):
    """The dumps of a transcript, each with its width, its height and its bytes."""
    found, at = [], 0
    head = re.compile(rb"^dump (\d{1,4}) (\d{1,4})\n", re.M)
    while it := head.search(transcript, at):
        width, height = int(it[1]), int(it[2])
        at = it.end() + width * height
        found.append((width, height, transcript[it.end() : at]))
    if not found:
        raise Trouble("the transcript is empty" if not transcript else "the transcript has no dump: add a line `dump` to its script")
    width, height, pixels = found[-1]
    if len(pixels) < width * height:
        raise Trouble(f"the last dump of the transcript is cut short: {width * height} bytes, and {len(pixels)} are there")
    return found


def checked_colours(pixels, palette):
    """The pixels, where the palette has a colour for each of them."""
    if pixels and max(pixels) >= len(palette):
        raise Trouble(f"the palette has {len(palette)} colours, from 0, and a pixel has number {max(pixels)}")
    return pixels


def scaled_rows(pixels, width, scale):
    """The rows of a picture of that width, each pixel as a square of `scale` by `scale`."""
    for start in range(0, len(pixels), width):
        row = pixels[start : start + width]
        if scale > 1:
            row = b"".join(bytes([pixel]) * scale for pixel in row)
        yield from [row] * scale


def chunk(kind, data):
    """A chunk of a PNG file."""
    return struct.pack(">I", len(data)) + kind + data + struct.pack(">I", zlib.crc32(kind + data))


def packed(rows):
    """Rows of palette numbers as a PNG file keeps them."""
    return zlib.compress(b"".join(b"\0" + row for row in rows), 9)


def png_head(width, height, palette):
    """The beginning of a PNG file of palette numbers."""
    colours = b"".join(bytes(colour) for colour in palette)
    return SIGNATURE + chunk(b"IHDR", struct.pack(">IIBBBBB", width, height, 8, 3, 0, 0, 0)) + chunk(b"PLTE", colours)


def png_of(rows, palette):
    """A PNG file of these rows of palette numbers."""
    return png_head(len(rows[0]), len(rows), palette) + chunk(b"IDAT", packed(rows)) + chunk(b"IEND", b"")


def chunks_in(data, path):
    """The chunks of a PNG file, each its kind and its bytes."""
    if not data.startswith(SIGNATURE):
        raise Trouble(f"{path}: no PNG file")
    at = len(SIGNATURE)
    while at + 12 <= len(data):
        length, kind = struct.unpack(">I4s", data[at : at + 8])
        yield kind, data[at + 8 : at + 8 + length]
        at += 12 + length


def unfiltered(raw, height, stride, step):
    """The rows of a PNG file, each of `stride` bytes, without the filters; a pixel has `step` bytes."""
    before = bytes(stride)
    for y in range(height):
        kind, row = raw[y * (stride + 1)], bytearray(raw[y * (stride + 1) + 1 : (y + 1) * (stride + 1)])
        for at in range(stride):
            left = row[at - step] if at >= step else 0
            corner = before[at - step] if at >= step else 0
            row[at] = (row[at] + filtered(kind, left, before[at], corner)) & 255
        yield bytes(row)
        before = row


def filtered(kind, left, up, corner):
    """What a filter of a PNG file took away from a byte with these neighbours."""
    if kind == 4:
        guess = left + up - corner
        return min((abs(guess - left), 0, left), (abs(guess - up), 1, up), (abs(guess - corner), 2, corner))[2]
    return (0, left, up, (left + up) // 2)[kind]


def samples_of(row, depth):
    """The numbers in a row of a PNG file whose samples have so many bits."""
    if depth == 8:
        return row
    if depth == 16:
        return row[::2]
    most = (1 << depth) - 1
    return bytes(byte >> shift & most for byte in row for shift in range(8 - depth, -1, -depth))


def colours_in(data, path):
    """A PNG file as its width, its height and its pixels, each red, green, blue and how opaque it is, 0 to 255."""
    try:
        kept = list(chunks_in(data, path))
        width, height, depth, kind, _, _, laced = struct.unpack(">IIBBBBB", kept[0][1])
        if laced:
            raise Trouble(f"{path}: an interlaced PNG file: save it without")
        if width * height > 1 << 24:
            raise Trouble(f"{path}: {width} by {height} pixels are too many")
        count = {0: 1, 2: 3, 3: 1, 4: 2, 6: 4}[kind]
        stride = (width * count * depth + 7) // 8
        raw = zlib.decompress(b"".join(it for name, it in kept if name == b"IDAT"))
        table = dict(kept).get(b"PLTE", b"")
        clear = dict(kept).get(b"tRNS", b"")
        pixels = []
        for row in unfiltered(raw, height, stride, max(1, count * depth // 8)):
            samples = samples_of(row, depth)
            groups = zip(*[samples[at : width * count : count] for at in range(count)])
            pixels += [colour_of(group, kind, depth, table, clear) for group in groups]
        return width, height, pixels
    except (KeyError, IndexError, struct.error, zlib.error):
        raise Trouble(f"{path}: no whole PNG file") from None


def colour_of(samples, kind, depth, table, clear):
    """A pixel of a PNG file as red, green, blue and how opaque it is."""
    if kind == 3:
        at = samples[0]
        return *table[3 * at : 3 * at + 3], clear[at] if at < len(clear) else 255
    if kind in (0, 4):
        grey = samples[0] * (255 // ((1 << min(depth, 8)) - 1))
        return grey, grey, grey, samples[1] if kind == 4 else 255
    return *samples[:3], samples[3] if kind == 6 else 255


def nearest(colour, palette, kept):
    """The number of the palette's colour that is nearest to red, green and blue; `kept` keeps what was found."""
    if colour not in kept:
        kept[colour] = min(range(len(palette)), key=lambda at: sum((a - b) ** 2 for a, b in zip(palette[at], colour)))
    return kept[colour]
