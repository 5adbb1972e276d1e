"""HTML elements, built so that no text gets into a page unescaped: what isn't `Markup` is a text."""

from __future__ import annotations

import html
import xml.etree.ElementTree as ET

from .pictures import visible

EMPTY = ("meta", "link", "br")
LARGE, SHRUNK = 1100, 0.65  # a picture is shrunk to a narrow screen so far, and one that is wider than LARGE is moved about instead


class Markup(str):
    """A text that is HTML already."""


def escaped(part: object) -> str:
    if isinstance(part, Markup):
        return part
    if isinstance(part, (list, tuple)):
        return "".join(escaped(each) for each in part)
    return html.escape(visible(str(part)))


def el(tag: str, *parts: object, **attributes: object) -> Markup:
    """An element; `class_` is the attribute class, and `aria_label` is aria-label. An attribute None is left out."""
    named = {key.rstrip("_").replace("_", "-"): value for key, value in attributes.items() if value is not None}
    start = "".join(f' {key}="{escaped(value)}"' for key, value in named.items())
    return Markup(f"<{tag}{start}>" if tag in EMPTY else f"<{tag}{start}>{escaped(parts)}</{tag}>")


def many(*parts: object) -> Markup:
    return Markup(escaped(parts))


def picture(element: ET.Element, number: int) -> Markup:
    """An SVG of a page: its name and what it tells belong to it by ids that no other picture has."""
    element = ET.fromstring(ET.tostring(element))
    element.set("aria-labelledby", f"t{number}")
    element.set("aria-describedby", f"d{number}")
    element[0].set("id", f"t{number}")
    element[1].set("id", f"d{number}")
    wide = float(element.attrib["width"])
    least = wide if wide > LARGE else min(wide, max(wide * SHRUNK, 240))
    element.set("style", f"max-width:{wide:.0f}px;min-width:{least:.0f}px")
    return Markup(ET.tostring(element, encoding="unicode"))
