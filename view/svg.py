"""Small helpers of the SVG writers."""
from __future__ import annotations


def escape(text: str) -> str:
    """A text as it stands in XML."""
    return text.replace("&", "&amp;").replace("<", "&lt;").replace(">", "&gt;")


def clip(text: str, most: int) -> str:
    """A text cut to so many signs, with a dot where it was cut and there is room for one."""
    if len(text) <= most:
        return text
    return text[:most - 1] + "." if most > 6 else text[:max(most, 1)]
