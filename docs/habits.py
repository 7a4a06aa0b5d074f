"""Habits of pages and comments that docs/CONTRIBUTING.md ("Style") advises against, as far as a pattern finds them.

Each function returns pairs of a line and the advice. docs/check reports them.
"""

import io
import re
import tokenize

HABITS = (
    (re.compile(r"(?<!fall )(?<!falls )(?<!fell )\bbehind\b", re.I), "write after, following, under or guarded by for `behind`"),
    (re.compile(r"\bso (?:many|often)\b", re.I), "name the number"),
    (re.compile(r"\b(?:a|an empty|the first|the second|each|no) text\b|\btexts\b", re.I), "write bytes, byte string, key, value or message"),
    (re.compile(r"\bfor want of\b", re.I), "write: if allocation fails"),
    (re.compile(r"\blets? (?:\w+ )?go of\b|\bletting go\b", re.I), "write: releases, frees or deletes"),
    (re.compile(r"\b(?:C|the caller|its caller) owes\b", re.I), "write: must"),
)
OPENINGS = r"(?:What|Who|How (?:many|much|far|long|often)|That of|Those of)\b(?![^\n.]*\?)"
BEGIN = "begin with a verb or a noun"

# Beginnings of a page's headings, paragraphs, items, bold words and cells.
PAGE_OPENING = re.compile(r"(?:\n[ \t]*\n(?:#+ |[-*] |\d+\. |\*\*)?|\n(?:#+ |[ \t]*[-*] |\d+\. |\*\*)|\| ?)" + OPENINGS)
COMMENT_OPENING = re.compile(r"[/*#!\"\s-]*" + OPENINGS)
COMMENT = re.compile(r"/\*.*?\*/", re.DOTALL)
# Lines of comments of Antt that follow each other.
ANTT_COMMENT = re.compile(r"(?:^ *|(?<=[ ;)]))--.*(?:\n *--.*)*", re.MULTILINE)
# Lines of comments that follow each other, but for those of an example.
RUST_COMMENT = re.compile(r"(?:(?<=[\n{};,)(] )|(?<=\n)) *//[/!]?.*(?:\n *//[/!]?.*)*")
# The comment at the head of a file.
HEAD_COMMENT = re.compile(r"(?://[/!]?.*\n)+")
RUST_EXAMPLE = re.compile(r"//[/!] ```.*?//[/!] ```", re.DOTALL)
CONTRACTION = re.compile(r"\b\w+n't\b|\b(?:it|that|there)'s\b", re.I)


def line_at(text, offset):
    return text.count("\n", 0, offset) + 1


def found_in(text, patterns):
    return [(line_at(text, at.end() - 1), said) for pattern, said in patterns for at in pattern.finditer(text)]


def habits_of_page(text):
    """The habits of a page, whose code is left out."""
    openings = [(line - 2, said) for line, said in found_in("\n\n" + text, [(PAGE_OPENING, BEGIN)])]
    return found_in(text, HABITS) + openings


def contractions(text):
    return found_in(text, [(CONTRACTION, "write contractions out")])


def comments_of(file):
    """The comments of a file of C, Rust, Rattle or Antt, or the comments and docstrings of one of Python, with their offsets."""
    text = file.read_text()
    if file.suffix == ".antt":
        return [(at.start(), at.group()) for at in ANTT_COMMENT.finditer(text)]
    if file.suffix in (".rs", ".rt"):
        text = RUST_EXAMPLE.sub(lambda example: re.sub(r"[^\n]", " ", example.group()), text)
        head = HEAD_COMMENT.match(text)
        comments = [(0, head.group())] if head else []
        return comments + [(at.start(), at.group()) for at in RUST_COMMENT.finditer(text, head.end() if head else 0)]
    if file.suffix != ".py":
        return [(at.start(), at.group()) for at in COMMENT.finditer(text)]
    starts = [0]
    for line in text.split("\n"):
        starts.append(starts[-1] + len(line) + 1)
    found, begins = [], True
    for token in tokenize.generate_tokens(io.StringIO(text).readline):
        if token.type == tokenize.COMMENT or token.type == tokenize.STRING and begins:
            found.append((starts[token.start[0] - 1] + token.start[1], token.string))
        if token.type not in (tokenize.COMMENT, tokenize.NL):
            begins = token.type in (tokenize.NEWLINE, tokenize.INDENT, tokenize.DEDENT, tokenize.ENCODING)
    return found


def habits_of_comments(file):
    """The habits in a file's comments. A header has no contractions either."""
    text, found = file.read_text(), []
    for offset, comment in comments_of(file):
        words = re.sub(r"`[^`\n]*`", lambda span: "`" * len(span.group()), comment)
        habits = found_in(words, HABITS) + (contractions(words) if file.suffix == ".h" else [])
        if COMMENT_OPENING.match(words):
            habits.append((1, BEGIN))
        found += [(line_at(text, offset) + line - 1, said) for line, said in habits]
    return found
