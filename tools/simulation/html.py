"""The parts of an HTML page that needs nothing else: its frame, figures, tables and pictures."""

import io
import pathlib
import re
from dataclasses import dataclass
from html import escape

from . import pictures

STYLE = pathlib.Path(__file__).with_name("page.css")
# Colours of a picture that the page's style sets, for light and dark.
VARIABLES = {
    pictures.BLUE: "var(--blue)",
    pictures.GOLD: "var(--gold)",
    pictures.RED: "var(--red)",
    pictures.GRID: "var(--grid)",
    pictures.INK: "currentColor",
    pictures.PAPER: "var(--paper)",
    "#cccccc": "var(--grid)",
}


@dataclass
class Figure:
    """A figure of the head, and what it is; an alarming one stands out."""

    value: str
    name: str
    alarming: bool = False


@dataclass
class Section:
    """A picture with what it shows in words, and its table: the names of the columns and the rows. Without a picture the words stand
    alone."""

    key: str
    head: str
    text: str
    draw: object
    columns: tuple = ()
    rows: tuple = ()


def document(title: str, parts: list) -> str:
    head = f'<meta charset="utf-8"><meta name="viewport" content="width=device-width, initial-scale=1"><title>{escape(title)}</title>'
    head += f'<link rel="icon" href="data:,"><style>\n{STYLE.read_text(encoding="utf-8")}</style>'
    body = "\n".join([f"<h1>{escape(title)}</h1>", *parts])
    return f'<!DOCTYPE html>\n<html lang="en"><head>{head}</head>\n<body><main>\n{body}\n</main></body></html>\n'


def figures(list_of: list) -> str:
    items = "".join(
        f'<li{" class=alarmed" if figure.alarming else ""}><strong>{escape(figure.value)}</strong><span>{escape(figure.name)}</span></li>'
        for figure in list_of
    )
    return f'<ul class="figures">{items}</ul>'


def details(summary: str, inner: str) -> str:
    return f"<details><summary>{escape(summary)}</summary>{inner}</details>"


def table(key, caption, columns, rows, texts=False) -> str:
    head = "".join(f'<th scope="col">{escape(name)}</th>' for name in columns)
    head = f"<thead><tr>{head}</tr></thead>" if any(columns) else ""
    body = "".join(f'<tr><th scope="row">{escape(row[0])}</th>' + "".join(f"<td>{escape(cell)}</td>" for cell in row[1:]) + "</tr>" for row in rows)
    kind = ' class="texts"' if texts else ""
    return f'<div class="scrolled"><table id="{key}"{kind}><caption>{escape(caption)}</caption>{head}<tbody>{body}</tbody></table></div>'


def sections(list_of) -> str:
    return '<div class="pictures">' + "\n".join(map(_section, list_of)) + "</div>"


def _section(section: Section) -> str:
    told = escape(section.text)
    shown = f"<figure>{inline(section)}<figcaption>{told}</figcaption></figure>" if section.draw else f"<p>{told}</p>"
    numbers = details("The numbers", table(f"{section.key}-table", section.head, section.columns, section.rows)) if section.rows else ""
    return f'<section id="{section.key}"><h2>{escape(section.head)}</h2>\n{shown}{numbers}</section>'


def inline(section: Section) -> str:
    """The picture as part of the page: names of its own, the page's colours, and its text for those who can't see it."""
    sink = io.StringIO()
    section.draw(sink)
    drawn = sink.getvalue()
    drawn = drawn[drawn.index("<svg") :]
    drawn = re.sub(r"<metadata>.*?</metadata>|<!--.*?-->", "", drawn, flags=re.DOTALL)
    drawn = re.sub(r'(\bid="|href="#|url\(#)', rf"\g<1>{section.key}-", drawn)
    for colour, variable in VARIABLES.items():
        drawn = drawn.replace(colour, variable)
    drawn = re.sub(r'(<svg[^>]*?) width="[^"]*"', r"\1", drawn, count=1)
    drawn = re.sub(r'(<svg[^>]*?) height="[^"]*"', r"\1", drawn, count=1)
    named = f'role="img" aria-labelledby="{section.key}-title {section.key}-text"'
    told = f'<title id="{section.key}-title">{escape(section.head)}</title><desc id="{section.key}-text">{escape(section.text)}</desc>'
    return re.sub(r"<svg([^>]*)>", lambda found: f"<svg{found[1]} {named}>{told}", drawn, count=1).strip()
