"""layout: checks the sources and scripts that git tracks or could track: the columns of a line, in characters, and the lines of a function's body, a
file, and a term of a proof: a clause of a definition, to its end or its `where`, behind which are more terms. Pages and edits aren't measured."""

import re
import subprocess

from gate import tree

COLUMNS, TERM, FUNCTION, FILE = 160, 60, 40, 800
MEASURED = {".rt", ".antt", ".rs", ".c", ".h", ".cpp", ".py", ".sh"}
# Tests whose rows are in their body.
TABLES = {"collection_and_wear_follow_the_worked_rows", "each_call_leaves_the_words_of_the_table"}
TABLES |= {f"{its}_as_the_rows_say" for its in ("brooms_answer", "drains_by_the_last_survey_answer", "hosts_answer")}
SIGNATURE = re.compile(r"( *)(?:pub |abbrev |unfoldable )*([^\s(){}\[\].,;:=]+) :(?: |$)")


def sources():
    """The files that are measured, each with its text."""
    listed = subprocess.run(["git", "ls-files", "-co", "--exclude-standard", "-z"], cwd=tree.TOP, capture_output=True, text=True, check=True).stdout
    for path in (tree.TOP / name for name in sorted(filter(None, listed.split("\0"))) if (tree.TOP / name).is_file()):
        if path.suffix in MEASURED or not (path.is_symlink() or path.suffix) and path.read_bytes().startswith(b"#!"):
            yield tree.relative(path), path.read_text()


def terms(lines):
    """Each term of a file of proofs: its name, the number of its first line, and its length."""
    named = {(len(found[1]), found[2]) for found in map(SIGNATURE.match, lines) if found}
    # Of each line that isn't empty its number, its depth and its first word.
    heads = [(n, len(line) - len(line.lstrip()), line.split()[0]) for n, line in enumerate(lines, 1) if line.strip()]
    for at, (start, depth, name) in enumerate(heads):
        if (depth, name) in named and "=" in lines[start - 1] and not SIGNATURE.match(lines[start - 1]):
            end = next((n for n in range(at + 1, len(heads)) if heads[n][1] <= depth or heads[n][2] == "where"), len(heads))
            yield name, start, heads[end - 1][0] - start + 1


def measured():
    """Each thing that is measured: what it is, its place, its length with the unit, and the most that is allowed."""
    for name, text in sources():
        lines = text.splitlines()
        yield "a file", name, len(lines), "lines", FILE
        yield from (("a line", f"{name}:{n}", len(line), "columns", COLUMNS) for n, line in enumerate(lines, 1))
        its = terms(lines) if name.endswith(".antt") and "/proofs/" in name else ()
        yield from (("a term", f"{name}:{n}: {term}", length, "lines", TERM) for term, n, length in its)
        for it in (it for it in (tree.functions(text) if name.endswith(".rt") else ()) if it.name not in TABLES):
            yield "a function", f"{name}:{text.count(chr(10), 0, it.start) + 1}: {it.name}", text.count("\n", it.body, it.end), "lines", FUNCTION


def main(_):
    wrong = (f"{place}: {kind} of {length} {unit}, and at most {most} are wanted" for kind, place, length, unit, most in measured() if length > most)
    return tree.verdict(wrong, "no line, term, function or file is too long")
