"""Writes XML. Whatever bytes come, the result is well-formed: no text opens a tag, ends an attribute, or holds a character that XML lacks."""
import unicodedata

NAMED = {"&": "&amp;", "<": "&lt;", ">": "&gt;", '"': "&quot;", "'": "&#39;"}


def shown(char):
    """A character as text of a page. One that can't be printed, or is a byte outside UTF-8, is shown by its number."""
    code = ord(char)
    if 0xDC80 <= code <= 0xDCFF:
        return f"\\x{code - 0xDC00:02x}"
    if unicodedata.category(char) in ("Cc", "Cf", "Cs", "Co", "Cn", "Zl", "Zp"):
        return f"\\x{code:02x}" if code < 256 else f"\\u{code:04x}"
    return NAMED.get(char, char)


def escaped(text):
    return "".join(map(shown, str(text)))


def element(tag, content="", **attributes):
    """An element. `content` is XML already; the values of attributes are texts. `class_` is `class`, and other `_` are `-`."""
    words = "".join(f' {name.rstrip("_").replace("_", "-")}="{escaped(value)}"' for name, value in attributes.items() if value is not None)
    return f"<{tag}{words}>{content}</{tag}>" if content else f"<{tag}{words}/>"


def text(x, y, words, class_, anchor="start", title=None, **attributes):
    content = escaped(words) + (element("title", escaped(title)) if title else "")
    return element("text", content, x=x, y=y, class_=class_, text_anchor=anchor, **attributes) if content else ""


def line(x1, y1, x2, y2, class_, title=None, **attributes):
    return element("line", element("title", escaped(title)) if title else "", x1=x1, y1=y1, x2=x2, y2=y2, class_=class_, **attributes)


def cut(words, length):
    """A text of at most so many characters."""
    return words if len(words) <= length else words[: length - 1] + "…"
