"""Documents by their sections, so that a script makes some of them anew and leaves the others."""

import re


def parts_of(text):
    """Returns the head of a document, and its sections by their headings, each with the lines behind it."""
    first, *others = re.split(r"^(?=## )", text, flags=re.M)
    return first, {part.split("\n", 1)[0]: part for part in others}


def renew(path, made, head=None):
    """Writes a document anew: the sections that were made in place of those of the same headings, and the head if there is one."""
    first, former = parts_of(path.read_text(encoding="ascii"))
    assert set(made) <= set(former), "%s has no section %s" % (path, sorted(set(made) - set(former)))
    parts = [head or first, *{**former, **made}.values()]
    path.write_text("\n".join(part.rstrip("\n") + "\n" for part in parts), encoding="ascii")
