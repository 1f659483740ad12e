"""Drawn changes of texts and of certificates, for the tools that try them."""

import itertools
import re

import versions

WORDS_OF_FORMATS = [word.encode() for word in (
    "closed cut none end rows plan cost kind weight pbnf-certificate grid tiles strips goal type "
    "octile height width map version ( ) - = () ?x ?y and not or when define domain problem "
    ":action :parameters :precondition :effect :init :goal :objects :types :predicates "
    ":constants :requirements :strips :typing :functions :metric total-cost number minimize "
    "maximize increase decrease object either 0 1 2 3 4 6 7 12 13 15 16 64 256 257 00 01 -1 +1 "
    "width pattern grounding all reachable estimate tables table trap "
    "1048576 1048577 9223372036854775807 9223372036854775808 4294967296 1000 1001 999999999 "
    "1000000000").split()]


HOSTILE_NUMBERS = [
    b"0", b"1", b"2", b"00", b"01", b"+1", b"-0", b"-1", b"1.0", b"1e3", b"0x10", b"1_000", b"NaN",
    *(b"%d" % (2**power + more) for power in (8, 16, 31, 32, 40, 53, 62, 63, 64, 128)
      for more in (-1, 0, 1)),
    b"9" * 9, b"1" + b"0" * 9, b"9" * 18, b"9" * 19, b"9" * 20, b"9" * 400, b"0" * 400 + b"1",
    "\u0663".encode(), b""]
MOST_FORMS = 4000  # numbers of a text among which a field is looked for


def change_text(random, text):
    """One drawn change of a text: of bytes, words, numbers or lines."""
    return random.choice([change_byte, change_byte, cut, change_word, change_word, change_word,
                          change_number, change_field, change_lines, change_lines])(random, text)


def change_byte(random, text):
    at = random.randrange(len(text) + 1)
    way = random.randrange(4)
    if way == 0:
        return text[:at] + bytes([random.randrange(256)]) + text[at:]
    if way == 1:
        return text[:at] + text[at + 1:]
    if way == 2:
        flipped = bytes([text[at] ^ 1 << random.randrange(8)]) if at < len(text) else b"\n"
        return text[:at] + flipped + text[at + 1:]
    other = random.choice([b"\n", b" ", b"\r", b"\t", b"\0", b"\xff", b";", b"("])
    return text[:at] + other + text[at:]


def cut(random, text):
    return text[:random.randrange(len(text) + 1)]


def pieces_of(text):
    """The text in pieces: at odd places its words, brackets being words too."""
    return re.split(rb"([^\s()]+|[()])", text)


def change_word(random, text):
    """A word is left out, repeated, or becomes another word of the text or of the formats."""
    pieces = pieces_of(text)
    if len(pieces) < 3:
        return text + random.choice(WORDS_OF_FORMATS)
    at = random.randrange(len(pieces) // 2) * 2 + 1
    other = random.choice([random.choice(WORDS_OF_FORMATS), random.choice(pieces[1::2])])
    pieces[at] = random.choice([b"", pieces[at] + b" " + pieces[at], other, other,
                                pieces[at] + b" " + other])
    return b"".join(pieces)


def change_number(random, text):
    """A run of decimal digits becomes another number."""
    found = list(re.finditer(rb"[0-9]+", text))
    if not found:
        return change_byte(random, text)
    chosen = random.choice(found)
    number = int(chosen[0][-30:])
    others = [max(number - 1, 0), number + 1, number + 1, random.randrange(20), 2 * number,
              random.randrange(2**random.randrange(1, 70)), 2**63 - 1, 2**63, 2**32]
    return text[:chosen.start()] + b"%d" % random.choice(others) + text[chosen.end():]


def change_field(random, text):
    """The number in a drawn field becomes a hostile one. Fields are told apart by the first word of
    their line and by their place in it, so that one that comes once is drawn as often as one that
    each row has."""
    found = list(itertools.islice(re.finditer(rb"[0-9]+", text), MOST_FORMS))
    if not found:
        return change_byte(random, text)
    fields = {}
    for number in found:
        begin = text.rfind(b"\n", 0, number.start()) + 1
        before = text[begin:number.start()].split()
        word = before[0] if before and not before[0][:1].isdigit() else b""
        fields.setdefault((word[:20], len(before)), []).append(number)
    number = random.choice(random.choice(list(fields.values())))
    other = random.choice(HOSTILE_NUMBERS)
    return text[:number.start()] + other + text[number.end():]


def change_lines(random, text):
    """A line is left out, repeated or moved, or two lines change places."""
    lines = text.split(b"\n")
    at, other = random.randrange(len(lines)), random.randrange(len(lines))
    way = random.randrange(4)
    if way == 0:
        del lines[at]
    elif way == 1:
        lines.insert(other, lines[at])
    elif way == 2:
        lines[at], lines[other] = lines[other], lines[at]
    else:
        lines.insert(other % len(lines), lines.pop(at))
    return b"\n".join(lines)


def change_certificate(random, text):
    """One drawn change of a certificate, of which most keep it spelled as one."""
    ways = [change_text, change_text, drop_row, drop_row, add_row, change_g, change_g, turn_row,
            turn_row, change_plan, change_weight, change_width, change_pattern, change_grounding]
    ways += [change_tables] * 10 if versions.tables_of(text) else []
    return random.choice(ways)(random, text)


def change_tables(random, text):
    """The certificate with tables that are changed in one value, image, atom, count or line."""
    lines = versions.tables_of(text)
    if not lines:
        return change_text(random, text)
    return versions.with_tables(text, change_file_of_tables(random, lines))


def change_file_of_tables(random, lines):
    """The lines that state tables, with one value, image, atom, count or line changed."""
    ways = [change_value, change_value, change_value, change_image, change_image, drop_image,
            drop_image, add_image, change_lines, change_number, change_text]
    return random.choice(ways)(random, lines)


def change_line_of_tables(random, lines, form, change):
    """The lines of tables with other lines in place of a drawn one of this form."""
    whole = lines.splitlines(keepends=True)
    places = [at for at, line in enumerate(whole) if at and re.fullmatch(form, line)]
    if not places:
        return change_text(random, lines)
    at = random.choice(places)
    whole[at:at + 1] = change(whole[at])
    return b"".join(whole)


def change_value(random, lines):
    """One value is a little greater or less."""
    def change(line):
        words = line.split()
        at = random.randrange(1, len(words))
        words[at] = b"%d" % max(int(words[at]) + random.choice([-2, -1, -1, 1, 1, 1, 2, 2**40]), 0)
        return [b" ".join(words) + b"\n"]
    return change_line_of_tables(random, lines, rb"[0-9a-f]+(?: [0-9]{1,19})+\n", change)


def change_image(random, lines):
    """One atom more or less in an image, or among the tracked atoms."""
    def change(line):
        name, state, rest = re.fullmatch(rb"(table |trap |)([0-9a-f]+)(.*\n)", line).groups()
        other = int(state, 16) ^ 1 << random.randrange(4 * len(state))
        return [b"%s%0*x%s" % (name, len(state), other, rest)]
    form = rb"(?:table |trap |)[0-9a-f]+(?: [0-9]+)*\n"
    return change_line_of_tables(random, lines, form, change)


def drop_image(random, lines):
    return change_images(random, lines, lambda images: images.pop(random.randrange(len(images))))


def add_image(random, lines):
    """An image is listed twice, or one more is listed behind the last."""
    def change(images):
        at = random.randrange(len(images))
        state, blank, values = images[at].partition(b" ")
        state = state.strip()
        # an earlier change may have left another line there
        if not re.fullmatch(rb"[0-9a-f]+", state):
            images.insert(at + 1, images[at])
            return
        other = int(state, 16) + random.choice([0, 1, 2, 4]) & (1 << 4 * len(state)) - 1
        images.insert(at + 1, b"%0*x" % (len(state), other) + (blank + values or b"\n"))
    return change_images(random, lines, change)


def change_images(random, lines, change):
    """The lines with other images in a drawn table or trap, and their new number."""
    lists = re.split(rb"(?m)^(?=table|trap)", lines)
    places = [at for at, some in enumerate(lists) if at and some.count(b"\n") > 1]
    if not places:
        return change_text(random, lines)
    at = random.choice(places)
    head, *images = lists[at].splitlines(keepends=True)
    change(images)
    lists[at] = b"".join([b" ".join([*head.split()[:2], b"%d\n" % len(images)]), *images])
    return b"".join(lists)


def change_width(random, text):
    """The certificate in another version, or with another width: its states', or stated alone."""
    found = versions.digits_of(text)
    if found is None:
        return change_text(random, text)
    version, digits, _ = found
    other = random.choice([digits - 1, digits + 1, digits + 1, 2 * digits, 0, 1, 2, 4, 6, 9, 12, 16,
                           17, 63, 64, 65, 255, 256, 257])
    if version >= 2 and random.random() < 0.3:
        return text.replace(b"\nwidth %d\n" % digits, b"\nwidth %d\n" % max(other, 0), 1)
    if version >= 2 and random.random() < 0.3:
        return versions.as_version(text, 1, 64) or change_text(random, text)
    version = random.choice([2, 3]) if version == 1 else version
    return versions.as_version(text, version, max(other, 0)) or change_text(random, text)


def change_pattern(random, text):
    """The certificate with another pattern number, or without one."""
    pattern = versions.pattern_of(text)
    if pattern and random.random() < 0.1:
        return text.replace(b"pattern %d\n" % pattern, b"pattern 0\n", 1)
    less = [pattern - 1, pattern - 1, 0] if pattern else []
    numbers = [1, 2, 3, 4, 5, 6, 8, 11, 12, 12, 13, 2**32, 2**62, *less]
    return versions.with_pattern(text, random.choice(numbers))


def change_grounding(random, text):
    """The certificate in version 4 with another grounding, now and then as one of STRIPS; or one of
    version 4 in another version."""
    found = versions.digits_of(text)
    if found and found[0] == 4 and random.random() < 0.3:
        return versions.as_version(text, random.choice([2, 3]), found[1]) or text
    kinds = [b"\nkind grid\n", b"\nkind tiles\n"] * (random.random() < 0.6)
    for kind in kinds:
        text = text.replace(kind, b"\nkind strips\n", 1)
    return versions.with_grounding(text, random.choice(["all", "all", "reachable", "reachable",
                                                        "some"]))


def rows_of(text):
    """Where the certificate's rows begin among its lines, and how many there are."""
    lines = text.split(b"\n")
    for at, line in enumerate(lines):
        if re.fullmatch(rb"rows [0-9]{1,9}", line):
            return lines, at + 1, min(int(line[5:]), len(lines) - at - 1)
    return lines, len(lines), 0


def change_row(random, text, change):
    """The certificate with another list of rows in place of a drawn row, and their new number."""
    lines, first, count = rows_of(text)
    if not count:
        return change_text(random, text)
    at = first + random.randrange(count)
    rows = change(lines[at])
    lines[at:at + 1] = rows
    lines[first - 1] = b"rows %d" % (count + len(rows) - 1)
    return b"\n".join(lines)


def drop_row(random, text):
    return change_row(random, text, lambda row: [])


def add_row(random, text):
    """A row more behind a drawn one, whose state is a little greater."""
    def change(row):
        words = row.split(b" ")
        try:
            before = int(words[0], 16)
        except ValueError:
            return [row, row]
        digits = len(words[0])
        places = [at for at in (0, 1, 4, 8, 11, 22, 63, 64, 255, 256, 1023) if at < 4 * digits]
        state = before + 2**random.choice([0, *places])
        g = random.choice([0, 1, 5, 2**62, 2**63 - 1])
        status = random.choice([b"closed", b"cut"])
        return [row, b"%0*x %d %s" % (digits, state, g, status)]
    return change_row(random, text, change)


def change_g(random, text):
    def change(row):
        words = row.split(b" ")
        if len(words) == 3 and re.fullmatch(rb"[0-9]{1,18}", words[1]):
            words[1] = b"%d" % max(int(words[1]) + random.choice([-2, -1, -1, 1, 1, 2, 2**40]), 0)
        return [b" ".join(words)]
    return change_row(random, text, change)


def turn_row(random, text):
    def change(row):
        before, after = random.choice([(b"closed", b"cut"), (b"cut", b"closed")])
        return [row.replace(before, after)]
    return change_row(random, text, change)


def change_plan(random, text):
    """A step is left out, put in or changed, with the number of steps and the cost, or not."""
    lines, first = text.split(b"\n"), weight_of(text) + 1
    found = re.fullmatch(rb"plan ([0-9]{1,6})", lines[first]) if len(lines) > first else None
    if not found or len(lines) < first + 2 + int(found[1]):
        return change_text(random, text)
    steps = lines[first + 1:first + 1 + int(found[1])]
    at = random.randrange(len(steps) + 1)
    numbers = random.choices([0, 1, 2, 3, 4, 7, 2**32, 2**63 - 1], k=random.randrange(3))
    steps[at:at + random.randrange(2)] = [b"%d" % number for number in numbers]
    after = lines[first + 1 + int(found[1]):]
    if random.random() < 0.7:
        after[0] = b"cost %d" % len(steps)
    return b"\n".join(lines[:first] + [b"plan %d" % len(steps)] + steps + after)


def weight_of(text):
    """The place of a certificate's weight among its lines: behind the width and what is stated of
    grounding and estimate."""
    found = versions.digits_of(text)
    return text.count(b"\n", 0, found[2]) if found else 2


def change_weight(random, text):
    lines, at = text.split(b"\n"), weight_of(text)
    if len(lines) <= at:
        return change_text(random, text)
    weights = [(3, 2), (2, 1), (1000, 1), (1000, 999), (1000, 1000), (1, 2), (0, 0), (1001, 1)]
    lines[at] = b"weight %d %d" % random.choice(weights)
    return b"\n".join(lines)


def changed(random, text, change):
    """The text after one to three drawn changes."""
    for _ in range(random.choice([1, 1, 1, 2, 3])):
        text = change(random, text)
    return text
