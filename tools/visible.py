"""Names as they are printed: an invisible character, or one that reverses the text around it, is shown as its number."""

import tomllib
import unicodedata

# Unicode's controls, formats, separators of lines and of paragraphs, private and unassigned characters; and the stand-in for a byte that isn't text.
HIDDEN = ("Cc", "Cf", "Zl", "Zp", "Cs", "Co", "Cn")
# Letters and marks that are shown as nothing (Unicode's Default_Ignorable_Code_Point), and the empty pattern of Braille.
IGNORED = (0x034F, 0x115F, 0x1160, 0x17B4, 0x17B5, *range(0x180B, 0x1810), 0x2800, 0x3164, *range(0xFE00, 0xFE10), 0xFFA0, *range(0xE0100, 0xE01F0))


def is_hidden(character):
    is_blank = unicodedata.category(character) == "Zs" and character != " "
    return is_blank or unicodedata.category(character) in HIDDEN or ord(character) in IGNORED


def visible(text):
    return "".join(f"[U+{ord(it):04X}]" if is_hidden(it) else it for it in text)


def visible_in(told):
    """An object with each text in it made visible; line feeds stay."""
    if isinstance(told, str):
        return "\n".join(map(visible, told.split("\n")))
    if isinstance(told, dict):
        return {key: visible_in(value) for key, value in told.items()}
    return [visible_in(it) for it in told] if isinstance(told, (list, tuple)) else told


def names_of(tables):
    """Each name of the tables, by what it is the name of; empty if they aren't tables."""
    try:
        read = tomllib.loads(tables.decode())
        found = {("partido", it["numero"]): it["nome"] for it in read["partido"]}
        found |= {("candidato", it["cargo"], it["numero"]): it["nome"] for it in read["candidato"]}
        found |= {("federacao", *it["partidos"]): it["nome"] for it in read.get("federacao", [])}
        return {key: name for key, name in found.items() if isinstance(name, str)}
    except (ValueError, KeyError, TypeError, AttributeError, RecursionError):
        return {}


def hidden_in(tables):
    """A line for each name of the tables with such characters."""
    for key, name in names_of(tables).items():
        if any(map(is_hidden, name)):
            yield f"o nome de {' '.join(map(str, key))} tem caracteres que não se veem: {visible(name)}"
