"""Elements of an SVG picture as text. They say all by their own attributes, which every renderer knows, and by no style sheet."""
import html


FONTS = "DejaVu Sans, Verdana, Arial, sans-serif"


def document(parts, width, height):
    """A whole picture, with a line to each part."""
    box = f"0 0 {number(width)} {number(height)}"
    whole = element("svg", lines(parts), xmlns="http://www.w3.org/2000/svg", width=width, height=height, viewBox=box, font_family=FONTS)
    return f'<?xml version="1.0" encoding="UTF-8"?>\n{whole}\n'


def lines(parts):
    return "\n".join(["", *parts, ""])


def element(name, inside=None, **attributes):
    """An element; an attribute's name has _ for -."""
    words = "".join(f' {key.replace("_", "-")}="{number(value)}"' for key, value in attributes.items())
    return f"<{name}{words}/>" if inside is None else f"<{name}{words}>{inside}</{name}>"


def path(parts, **how):
    """Lines and curves of their parts; nothing is filled unless that is asked for."""
    return element("path", d="".join(parts), **{"fill": "none", **how})


def text(x, y, words, size, fill, **how):
    return element("text", escaped(words), x=x, y=y, font_size=size, fill=fill, **how)


def escaped(words):
    """Text for XML, which has no place for control characters nor for bytes that are no text."""
    words = words.encode(errors="surrogateescape").decode(errors="replace")
    return html.escape("".join(letter if letter.isprintable() else "\ufffd" for letter in words))


def number(value, places=2):
    """A number with no more digits than it needs; a text as it is."""
    if isinstance(value, str):
        return value
    written = f"{value:.{places}f}".rstrip("0").rstrip(".")
    return "0" if written == "-0" else written
