"""Makes the file of a field text by docs/FORMATS.md, "Parts"."""

import hashlib


def parts_file(text):
    """The parts of the text, chained by hashes."""
    parts = []
    for field in text.split(" "):
        if parts and len(parts[-1]) + 1 + len(field) <= 1000:
            parts[-1] += " " + field
        else:
            parts.append(field)
    lines, before = [], ""
    for number, fields in enumerate(parts, 1):
        part = f"QRBU:{number}:{len(parts)} VRQR:U1 {fields}"
        before = hashlib.sha512((before + part).encode()).hexdigest().upper()
        lines.append(f"{part} HASH:{before}\n")
    return "".join(lines)
