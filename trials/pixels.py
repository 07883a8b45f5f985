"""Pictures of codes: the drawings of a paper as pixels, without a browser; the pixels of a PDF; and pictures with black columns of
pixels."""

import re
import subprocess

# Pixels of a module in the drawings made here.
SCALE = 4
DPI = 200


class Picture:
    """A grey picture of one byte a pixel, 255 white."""

    def __init__(self, width, height, data):
        self.width, self.height, self.data = width, height, bytearray(data)

    def save(self, path):
        with open(path, "wb") as file:
            file.write(f"P5\n{self.width} {self.height}\n255\n".encode() + self.data)
        return path

    def blacked(self, left, wide):
        """The same with this many columns black, from one on."""
        made = Picture(self.width, self.height, self.data)
        for row in range(self.height):
            at = row * self.width + left
            made.data[at : at + wide] = bytes(wide)
        return made

    def cropped(self, left, top, right, bottom):
        rows = (self.data[row * self.width + left : row * self.width + right] for row in range(top, bottom))
        return Picture(right - left, bottom - top, b"".join(rows))


def read(path):
    """A picture as pdftoppm -gray writes it."""
    with open(path, "rb") as file:
        data = file.read()
    width, height = map(int, re.match(rb"P5\s+(\d+)\s+(\d+)\s+255\s", data).groups())
    return Picture(width, height, data[-width * height :])


def runs_in(path):
    """Each row of black modules of a drawing of segno: its start and its length."""
    x, y = 0, 0
    for command, first, second in re.findall(r"([Mmh])(-?[0-9.]+)(?: (-?[0-9.]+))?", path):
        if command == "h":
            yield int(x), int(y), int(first)
            x += float(first)
        else:
            x, y = (x if command == "m" else 0) + float(first), (y if command == "m" else 0) + float(second)


def drawn(side, path):
    """The drawing of a code as pixels."""
    rows = [bytearray(b"\xff" * side * SCALE) for _ in range(side)]
    for x, y, length in runs_in(path):
        rows[y][x * SCALE : (x + length) * SCALE] = bytes(length * SCALE)
    return Picture(side * SCALE, side * SCALE, b"".join(bytes(row) * SCALE for row in rows))


def drawings(page):
    """Each code of a paper: its side on the paper in millimetres, its modules, with the white ones around it, and its pixels."""
    for width, side, path in re.findall(r'<svg width="([0-9.]+)mm"[^>]*viewBox="0 0 (\d+) \d+"[^>]*>.*?\bd="([^"]*)"', page):
        yield float(width), int(side), drawn(int(side), path)


def pages_of(pdf, begin):
    """The pages of a PDF as pixels, in files whose names begin with this."""
    subprocess.run(["pdftoppm", "-r", str(DPI), "-gray", pdf, begin], check=True, capture_output=True)
