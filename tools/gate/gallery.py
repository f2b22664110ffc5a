"""gallery [--write]: checks, or writes, the tables of docs/GALLERY.md. What refuses an edit stays on the page as `wrong-bodies` has put it there."""

import re
from pathlib import Path

from gate import tree

PAGE = "docs/GALLERY.md"


def goals_on_page():
    """The goals that refused each edit, as the page has them: by the edit's crate and words."""
    goals, crate, file = {}, "", tree.TOP / PAGE
    for line in file.read_text().splitlines() if file.exists() else []:
        if line.startswith("## "):
            crate = line[3:].strip("`")
        elif line.startswith("| "):
            cells = re.split(r"(?<!\\) \| ", line[2:].removesuffix(" |"))
            goals[crate, cells[0]] = cells[3] if len(cells) > 3 else ""
    return goals


def in_words(name):
    return name.replace("_", " ").capitalize()


def places_of(edit):
    """What each change of an edit is in: a function, or None outside of all."""
    for file, old, _ in edit.changes():
        text = (tree.folder(edit.crate) / file).read_text()
        yield tree.function_at(text, text.find(old) + len(old)) if old in text else None


def code(text):
    text = re.sub(r"\s+", " ", text).strip().replace("|", "\\|")
    return f"`{text}`" if text else "nothing"


def row(edit, twin, goals):
    """A wrong body with its twin as a row of its crate's table."""
    words, place, file = in_words(edit.name), next(places_of(edit)), next(edit.changes())[0]
    changes = "; ".join(f"{code(old)} becomes {code(new)}" for _, old, new in edit.changes())
    harmless = "; ".join(code(new) for _, _, new in twin.changes())
    return f"| {words} | `{place.called if place else Path(file).stem}` | {changes} | {goals.get((edit.crate, words), '')} | {harmless} |\n"


def page(goals):
    text = tree.beginning(PAGE)
    for name in tree.crates():
        if edits := tree.edits(name):
            text += f"## `{name}`\n\n| Misdeed | In | Change | Refused by the goals | Twin that is proved |\n|---|---|---|---|---|\n"
            text += "".join(row(*both, goals) for both in zip(edits, tree.edits(name, "twins"))) + "\n"
    return text.rstrip("\n") + "\n"


def put(refused):
    """Puts on the page what refused these edits, each as its crate, its name and its goal."""
    if goals := {(name, in_words(edit)): f"**`{goal}`**" for name, edit, goal in refused if goal}:
        (tree.TOP / PAGE).write_text(page(goals_on_page() | goals))


def main(words):
    made = page(goals_on_page())
    count = len(re.findall(r"^\| (?!Misdeed)", made, re.M))
    return tree.verdict(tree.differing(words, "gallery", GALLERY=made), f"{PAGE} has the {count} wrong bodies with their twins")
