"""Frames for VScreens: gauges, bars, lamps, trend curves, clocks, texts in the server's font, and PNG files.

    import frames
    dial = frames.gauge(64, 64, 72, 0, 100)          # a Picture: 64 by 64 palette numbers
    sys.stdout.buffer.write(frames.line(1, "v", dial))   # the line `1 v.frame(4096)` and its bytes

Every shape is drawn in palette numbers from 16 on (docs/GUIDE.md, "Palette"), so it depends on no colour of a widget. The
command beside this file, examples/frames, makes the same shapes.
"""

import math
import re

from toolbox import PALETTE, Trouble, bytes_in, colours_in, nearest, palette_in

SIDE = 256


def cube(red, green, blue):
    """The palette number of a colour of the cube, each part from 0 to 5."""
    return 16 + 36 * red + 6 * green + blue


def grey(level):
    """The palette number of a grey, from 0, dark, to 23, light."""
    return 232 + level


GREEN, YELLOW, RED, WHITE = cube(0, 4, 2), cube(5, 4, 0), cube(5, 1, 0), cube(5, 5, 5)
BLUE, LINE = cube(0, 2, 3), cube(2, 5, 4)

# The server's font: for each byte from the space on five columns of two hexadecimal digits; bit r is row r from the top.
FONT = bytes.fromhex(
    "000000000000005F00000007000700147F147F14242A7F2A12231308646236495620500008070300001C2241000041221C002A1C7F1C2A"
    "08083E080800807030000808080808000060600020100804023E5149453E00427F400072494949462141494D331814127F102745454539"
    "3C4A49493141211109073649494936464949291E0000140000004034000000081422411414141414004122140802015909063E415D594E"
    "7C1211127C7F494949363E414141227F4141413E7F494949417F090909013E414151737F0808087F00417F41002040413F017F08142241"
    "7F404040407F021C027F7F0408107F3E4141413E7F090909063E4151215E7F09192946264949493201017F01013F4040403F1F2040201F"
    "3F4038403F631408146303047804036159494D43007F4141410204081020004141417F0402010204404040404000030708002054547840"
    "7F284444383844444428384444287F385454541800087E090218A4A49C787F0804047800447D40002040403D007F1028440000417F4000"
    "7C047804787C080404783844444438FC1824241818242418FC7C08040408485454542404043F44243C4040207C1C2040201C3C4030403C"
    "44281028444C9090907C4464544C440008364100000077000000413608000201020402"
)


class Picture:
    """A picture of `width` by `height` palette numbers, each side 1 to 256, as a frame has them."""

    def __init__(self, width, height, ground=0):
        if not (1 <= width <= SIDE and 1 <= height <= SIDE):
            raise Trouble(f"a frame is 1 to {SIDE} pixels wide and high, not {width} by {height}")
        self.width, self.height = width, height
        self.pixels = bytearray([ground]) * (width * height)

    def set(self, x, y, colour):
        """Sets a pixel; off the picture nothing happens."""
        if 0 <= x < self.width and 0 <= y < self.height:
            self.pixels[y * self.width + x] = colour

    def fill(self, x, y, width, height, colour):
        """Fills a rectangle."""
        for row in range(max(0, y), min(self.height, y + height)):
            for column in range(max(0, x), min(self.width, x + width)):
                self.pixels[row * self.width + column] = colour

    def paint(self, colour_at):
        """Sets each pixel to what `colour_at` says of its middle's x and y; None leaves it."""
        for y in range(self.height):
            for x in range(self.width):
                colour = colour_at(x + 0.5, y + 0.5)
                if colour is not None:
                    self.pixels[y * self.width + x] = colour

    def disc(self, x, y, radius, colour):
        """Fills a disc around a point."""
        self.paint(lambda a, b: colour if math.hypot(a - x, b - y) <= radius else None)

    def stroke(self, x0, y0, x1, y1, thickness, colour):
        """Draws a straight line from one point to another."""
        length = math.hypot(x1 - x0, y1 - y0) or 1
        along = ((x1 - x0) / length, (y1 - y0) / length)

        def colour_at(a, b):
            ahead = min(length, max(0, (a - x0) * along[0] + (b - y0) * along[1]))
            far = math.hypot(a - x0 - ahead * along[0], b - y0 - ahead * along[1])
            return colour if far <= thickness / 2 else None

        self.paint(colour_at)

    def write(self, x, y, text, colour, scale=1):
        """Writes a text in the server's font, each pixel of a letter as a square of `scale` by `scale`."""
        for at, byte in enumerate(printable(text)):
            for column in range(5):
                bits = FONT[(byte - 32) * 5 + column]
                for row in range(8):
                    if bits >> row & 1:
                        self.fill(x + (6 * at + column) * scale, y + row * scale, scale, scale, colour)


def printable(text):
    """The bytes of a text, each from the space to `~`, as the font has them."""
    if not re.fullmatch(r"[ -~]*", text):
        raise Trouble(f"the font has the characters from the space to ~, and the text {text!r} has another")
    return text.encode("ascii")


def line(client, name, picture):
    """The line with which a client sends the picture to its VScreen, and the bytes behind it."""
    if not (1 <= client <= 16 and re.fullmatch(r"[A-Za-z][A-Za-z0-9_]{0,15}", name)):
        raise Trouble(f"a client is 1 to 16, and a name is a letter and up to 15 letters, digits or _, not {client} {name!r}")
    return f"{client} {name}.frame({len(picture.pixels)})\n".encode() + bytes(picture.pixels)


def fraction(value, least, most):
    """Where a value stands between the least, 0, and the most, 1; what is beyond them stands at the end."""
    if not least < most:
        raise Trouble(f"the least value is below the greatest, not {least:g} and {most:g}")
    return min(1.0, max(0.0, (value - least) / (most - least)))


def ray(turn, radius, x, y):
    """The point at that distance from (x, y); a turn is a part of the circle, clockwise from the top."""
    return x + radius * math.sin(2 * math.pi * turn), y - radius * math.cos(2 * math.pi * turn)


def gauge(width, height, value, least=0, most=100):
    """A round gauge with a needle: green up to six tenths, then yellow, and red from eight tenths on."""
    part = fraction(value, least, most)
    picture = Picture(width, height, grey(1))
    x, y, radius = width / 2, height / 2, min(width, height) / 2
    picture.disc(x, y, radius - 1, grey(5))

    def arc(a, b):
        far = math.hypot(a - x, b - y) / radius
        turn = (math.atan2(a - x, y - b) / (2 * math.pi) + 0.375) % 1 / 0.75
        if turn > 1 or not 0.78 <= far <= 0.92:
            return None
        return GREEN if turn < 0.6 else YELLOW if turn < 0.8 else RED

    picture.paint(arc)
    turn = 0.75 * part - 0.375
    picture.stroke(*ray(turn + 0.5, radius * 0.12, x, y), *ray(turn, radius * 0.7, x, y), max(2, radius / 12), WHITE)
    picture.disc(x, y, radius * 0.12, grey(14))
    return picture


def bar(width, height, value, least=0, most=100):
    """A bar, filled from the left, or from the bottom where it is higher than wide, with a mark at each tenth."""
    part = fraction(value, least, most)
    picture = Picture(width, height, grey(12))
    picture.fill(1, 1, width - 2, height - 2, grey(2))
    colour = GREEN if part < 0.6 else YELLOW if part < 0.8 else RED
    upright = height > width
    length = (height if upright else width) - 2
    filled = round(part * length)
    if upright:
        picture.fill(1, height - 1 - filled, width - 2, filled, colour)
    else:
        picture.fill(1, 1, filled, height - 2, colour)
    for tenth in range(1, 10):
        at = 1 + round(tenth * length / 10)
        if upright:
            picture.fill(1, height - 1 - at, max(1, width // 5), 1, grey(12))
        else:
            picture.fill(at, height - 1 - max(1, height // 5), 1, max(1, height // 5), grey(12))
    return picture


def lamp(width, height, colour):
    """A lamp of that palette number, with a rim and a light spot."""
    picture = Picture(width, height, grey(1))
    x, y, radius = width / 2, height / 2, min(width, height) / 2
    picture.disc(x, y, radius - 1, grey(16))
    picture.disc(x, y, radius * 0.8, colour)
    picture.disc(x - radius * 0.3, y - radius * 0.3, radius * 0.15, WHITE)
    return picture


def trend(width, height, values, least=0, most=100):
    """A curve of values from the left to the right, filled below, over a grid."""
    if not values:
        raise Trouble("a trend wants at least one value")
    picture = Picture(width, height, grey(2))
    for at in range(0, width, 24):
        picture.fill(at, 0, 1, height, grey(6))
    for at in range(0, height, 24):
        picture.fill(0, at, width, 1, grey(6))
    heights = [round((1 - it) * (height - 1)) for it in resampled([fraction(v, least, most) for v in values], width)]
    for x, top in enumerate(heights):
        before = heights[max(0, x - 1)]
        picture.fill(x, top, 1, height - top, BLUE)
        picture.fill(x, min(top, before), 1, abs(top - before) + 2, LINE)
    return picture


def resampled(values, count):
    """As many values on the straight lines between the given ones."""
    for x in range(count):
        place = x * (len(values) - 1) / max(1, count - 1)
        at = min(int(place), len(values) - 1)
        after = values[min(at + 1, len(values) - 1)]
        yield values[at] + (after - values[at]) * (place - at)


def clock(width, height, hour, minute):
    """The face of a clock with two hands."""
    picture = Picture(width, height, cube(0, 0, 1))
    x, y, radius = width / 2, height / 2, min(width, height) / 2
    picture.disc(x, y, radius - 2, cube(5, 4, 2))
    picture.disc(x, y, radius - 5, grey(2))
    for mark in range(60):
        long = mark % 5 == 0
        ends = (*ray(mark / 60, radius * (0.76 if long else 0.84), x, y), *ray(mark / 60, radius * 0.89, x, y))
        picture.stroke(*ends, radius / (15 if long else 40), WHITE if long else grey(14))
    picture.stroke(x, y, *ray((hour % 12 + minute / 60) / 12, radius * 0.5, x, y), radius / 10, grey(22))
    picture.stroke(x, y, *ray(minute / 60, radius * 0.72, x, y), radius / 20, WHITE)
    picture.disc(x, y, radius / 14, cube(5, 2, 0))
    return picture


def text(width, height, words, colour=WHITE, ground=233):
    """A text in the middle, as large as it fits."""
    picture = Picture(width, height, ground)
    across = max(1, 6 * len(words) - 1)
    scale = max(1, min(width // across, height // 8))
    picture.write((width - across * scale) // 2, (height - 8 * scale) // 2, words, colour, scale)
    return picture


def png(path, size=None, palette=None):
    """A PNG file in the palette's colours; with a size, width and height, made smaller or larger to it."""
    palette = palette or palette_in(PALETTE)
    width, height, colours = colours_in(bytes_in(path), path)
    if size is None and max(width, height) > SIDE:
        raise Trouble(f"{path} is {width} by {height}, and a frame at most {SIDE} by {SIDE}: give a width and a height")
    picture, kept = Picture(*(size or (width, height))), {}
    ground = palette[min(14, len(palette) - 1)]
    for y in range(picture.height):
        rows = span(y, picture.height, height)
        for x in range(picture.width):
            box = [colours[row * width + column] for row in rows for column in span(x, picture.width, width)]
            picture.set(x, y, nearest(mean(box, ground), palette, kept))
    return picture


def span(at, count, whole):
    """Which of `whole` pixels the one of that number covers where there are `count`; one at the least."""
    first = at * whole // count
    return range(first, max(first + 1, (at + 1) * whole // count))


def mean(box, ground):
    """The mean of colours over a ground, each red, green, blue and how opaque."""
    parts = []
    for at in range(3):
        parts.append(round(sum(it[at] * it[3] + ground[at] * (255 - it[3]) for it in box) / (255 * len(box))))
    return tuple(parts)
