"""Page files and page3x's printed text, read and written; what pages/look, pages/from-image and pages/make-offset share.

A picture here is (width, height, words), the words 0xTTRRGGBB row by row; the top byte T is carried and not shown.
"""
import os
import re
import signal
import struct
import sys

SIDE = 2048  # the largest side of a page
TAKEN = 4108  # the longest file that page3x takes, in bytes
TRAILER = struct.Struct('<HHI4s')  # width, height, the trailer's and the pixels' bytes, the mark
MARK = b'PAGE'
SYSTEM_PYTHON = '/usr/bin/python3'  # the interpreter for which pages/install installs Pillow

# A refusal's number in words, as enlarge says it.
REASONS = {
    1: 'a side is above 2,048',
    8: 'this is no page: it is too short, or its last 12 bytes are not those of a page of its length, as where two pages '
       'stand in one file',
    9: 'it is longer than 4,108 bytes, which is a page of 1,024 pixels',
}


class Refused(Exception):
    """A page that is refused, by its number."""

    def __init__(self, number):
        super().__init__(f'refused {number}: {REASONS.get(number, "for a reason that has no words here")}')


class Broken(Exception):
    """A text, an image or a file that cannot be used, in words."""


def read_page(data):
    """The picture of a page file of any size, by the rules of page3x but for the limit on the file's length."""
    if len(data) < TRAILER.size:
        raise Refused(8)
    width, height, back, mark = TRAILER.unpack(data[-TRAILER.size:])
    if mark != MARK or back != TRAILER.size + 4 * width * height or back != len(data):
        raise Refused(8)
    if width > SIDE or height > SIDE:
        raise Refused(1)
    return width, height, struct.unpack_from(f'<{width * height}I', data)


def write_page(picture):
    """The bytes of a page file."""
    width, height, words = picture
    pixels = struct.pack(f'<{len(words)}I', *words)
    return pixels + TRAILER.pack(width, height, TRAILER.size + len(pixels), MARK)


def read_text(text):
    """The picture that page3x printed, of any size."""
    lines = text.splitlines()
    width, height = map(int, lines[0].split(' '))
    rows = [line.split(' ') if line else [] for line in lines[1:]]
    if len(rows) != height:
        raise Broken(f'the text says {height} rows and has {len(rows)}')
    for number, row in enumerate(rows, 1):
        if len(row) != width or not all(re.fullmatch('[0-9a-f]{8}', word) for word in row):
            raise Broken(f'row {number} of the text is not {width} words of eight hexadecimal digits')
    return width, height, tuple(int(word, 16) for row in rows for word in row)


def read_any(data):
    """The picture of a page file, or of what page3x printed. A text has no byte P, with which a page's mark begins."""
    if re.match(rb'\d+ \d+\r?\n', data) and not data.endswith(MARK):
        return read_text(data.decode('ascii', 'replace'))
    refusal = re.fullmatch(rb'refused (\d+)\s*', data)
    if refusal:
        raise Refused(int(refusal[1]))
    return read_page(data)


def pillow():
    """Pillow's Image. Where this interpreter has none and is not the system's, the script starts again with that one."""
    try:
        from PIL import Image
    except ImportError:
        if sys.executable != SYSTEM_PYTHON and os.access(SYSTEM_PYTHON, os.X_OK):
            sys.stdout.flush()
            os.execv(SYSTEM_PYTHON, [SYSTEM_PYTHON, *sys.argv])
        install = os.path.relpath(os.path.join(os.path.dirname(os.path.abspath(__file__)), 'install'))
        raise Broken(f'Pillow is not installed: {install} installs it (Debian package python3-pil)') from None
    return Image


def words(doc, count):
    """The words that a tool was given, so many; its description where that was asked for."""
    given = sys.argv[1:]
    if given in (['-h'], ['--help']):
        print(doc)
        sys.exit(0)
    if len(given) != count:
        raise Broken('usage: ' + doc.splitlines()[0].rpartition(': ')[2])
    return given


def run(main, name):
    """Runs a tool's main: 0 where all went well, 1 for a refused page, 2 for what cannot be used."""
    signal.signal(signal.SIGPIPE, signal.SIG_DFL)  # a reader that has seen enough is no failure to speak of
    try:
        main()
    except Refused as refusal:
        print(f'{name}: {refusal}', file=sys.stderr)
        sys.exit(1)
    except OSError as trouble:
        print(f'{name}: {trouble.filename or "the output"}: {trouble.strerror or trouble}', file=sys.stderr)
        sys.exit(2)
    except Broken as trouble:
        print(f'{name}: {trouble}', file=sys.stderr)
        sys.exit(2)
