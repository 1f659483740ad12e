"""Paragraphs of over 80 words and sentences of over 25 in the documents.

A paragraph is a run of lines without a blank one, or an item of a list; sentences of the cells of
tables are looked at too. Code, headings and pictures are left out, and a name in code counts as one
word.
"""

import re

from .repository import Finding

MOST_IN_PARAGRAPH, MOST_IN_SENTENCE = 80, 25
ITEM = re.compile(r"^\s*([-*]|\d+\.)\s+")
# A sentence ends with one of these, perhaps with a bracket or a star after it, and a blank.
END = re.compile(r"(?<=[.?!])[)*\"']*\s+|(?<=[:;])\s*$")
SHORT = re.compile(r"\b(e\.g|i\.e|cf|vs|et al|[A-Z])\.(?=\s)")


def paragraphs(lines):
    """The paragraphs with the numbers of their first lines, and if each is a cell of a table."""
    found, at, held, fenced = [], 0, [], False

    def close():
        if held:
            found.append((at, " ".join(held), False))
        held.clear()

    for number, line in enumerate(lines, 1):
        if line.lstrip().startswith("```"):
            close()
            fenced = not fenced
        elif fenced or not line.strip() or line.startswith(("#", "    ")) and not held:
            close()
        elif line.lstrip().startswith("|"):
            close()
            cells = re.split(r"(?<!\\)\|", line.strip().strip("|"))
            found += [(number, cell, True) for cell in cells]
        else:
            if ITEM.match(line):
                close()
            if not held:
                at = number
            held.append(ITEM.sub("", line, count=1).strip())
    close()
    return found


def plain(text):
    """The text without marks: code and a link's target count as one word, or none."""
    text = re.sub(r"!\[[^]]*\]\([^)]*\)", "", text)
    text = re.sub(r"`[^`]*`", "CODE", text)
    text = re.sub(r"\]\([^)]*\)", "]", text)
    return text.replace("*", "").strip()


def words(text):
    return [word for word in text.split() if re.search(r"\w", word)]


def sentences(text):
    return END.split(SHORT.sub(lambda found: found[0][:-1], text))


def too_long(lines):
    """The number of a line, what is too long there, and its text."""
    for number, text, is_cell in paragraphs(lines):
        text = plain(text)
        count = len(words(text))
        if count > MOST_IN_PARAGRAPH and not is_cell:
            yield number, f"a paragraph of {count} words", text
        pieces = sentences(text)
        if is_cell:
            # (a cell can hold no list, so a semicolon parts its facts)
            pieces = [part for piece in pieces for part in piece.split("; ")]
        for sentence in pieces:
            count = len(words(sentence))
            if count > MOST_IN_SENTENCE:
                yield number, f"a sentence of {count} words", sentence


def find(repository):
    for path in repository.documents():
        for line, what, text in too_long(repository.lines(path)):
            yield Finding(path, line, f"{what}: {text[:70]}")
