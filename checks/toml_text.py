"""Reads TOML 1.1, as the program does, by Python's reader of TOML 1.0.
checks/damaged-inputs reads timing tables and notes so, through checks/faults.py and results.py."""

import re
import tomllib

# A string, one that its line doesn't end, a comment, blanks, a sign, or what stands between these.
TOKEN = re.compile(
    r'"""(?s:\\.|[^\\])*?"{3,5}|\'\'\'(?s:.)*?\'{3,5}|"(?:\\.|[^"\\\n])*"|\'[^\'\n]*\''
    r"|[\"'].*\n?|#[^\n]*|[ \t]+|[{}=.,\n]|[^\"'# \t{}=.,\n]+"
)
ESCAPE = re.compile(r"\\(?:(e)|x([0-9A-Fa-f]{2})|(?s:.))")


def document_of(text):
    """The document that a text is, and None where it is none."""
    try:
        return tomllib.loads(as_1_0(text.decode()))
    except (UnicodeDecodeError, tomllib.TOMLDecodeError):
        return None


def as_1_0(text):
    """The text with each inline table on a line, without a comma behind its last value, and without
    the escapes that TOML 1.0 doesn't have."""
    tokens, depth = TOKEN.findall(text.replace("\r\n", "\n")), 0
    for place, token in enumerate(tokens):
        depth += {"{": 1, "}": -1}.get(token, 0)
        if token == "}":
            drop_last_comma(tokens, place)
        elif depth > 0 and token[0] in "#\n" and not is_beside_sign(tokens, place):
            tokens[place] = " "
        elif token[0] == '"':
            tokens[place] = ESCAPE.sub(old_escape, token)
    return "".join(tokens)


def old_escape(escape):
    is_new, digits = escape.group(1), escape.group(2)
    return "\\u00" + (digits or "1b") if is_new or digits else escape.group()


def next_solid(tokens, place, step):
    """The place of the next token, forwards or backwards, that is neither blank nor a comment."""
    place += step
    while 0 <= place < len(tokens) and (tokens[place].isspace() or tokens[place][:1] in ("", "#")):
        place += step
    return place


def is_beside_sign(tokens, place):
    """Whether a token stands beside a sign that wants its key and its value on its line."""
    places = [next_solid(tokens, place, step) for step in (-1, 1)]
    return any(0 <= other < len(tokens) and tokens[other] in "=." for other in places)


def drop_last_comma(tokens, place):
    """Drops the comma before a table's end, where a value stands before it."""
    comma = next_solid(tokens, place, -1)
    if comma > 0 and tokens[comma] == "," and tokens[next_solid(tokens, comma, -1)] not in "{,":
        tokens[comma] = ""
