"""What every part of the picture is drawn with: how wide the sheet is, and how coordinates and words are written."""

from xml.sax.saxutils import escape

WIDTH, MARGIN = 960, 32
LEFT = 80  # where a row starts; its first offset stands to the left of it
ROOM = WIDTH - LEFT - MARGIN - 8


def short(value):
    """A coordinate with one digit behind the point, none where it is whole."""
    return f"{value:.1f}".removesuffix(".0")


def width_of(words, size=12):
    """About how wide a text is. Fonts differ, so it is taken rather too wide."""
    narrow = sum(words.count(c) for c in "fijlt.,:' ")
    return (len(words) - 0.45 * narrow) * size * 0.64


def text(x, y, words, style="", anchor=""):
    style = f' class="{style}"' if style else ""
    anchor = f' text-anchor="{anchor}"' if anchor else ""
    return f'<text x="{short(x)}" y="{short(y)}"{style}{anchor}>{escape(words)}</text>'
