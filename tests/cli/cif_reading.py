"""A reading of the operations of a CIF file, made from the definitions alone, by patterns over the whole text.

The profile of CIF 1.1 is in docs/GRAMMAR.md. Texts stand for bytes: the character of code n below 256 is the byte n.
"""
import re

WORD = re.compile(
    r"""
    [ \t\r\n]+
    | \#[^\n]*
    | (?m:^) ; (?P<field> (?s:.*?) ) \n ;
    | (?P<open_field> (?m:^) ; ) (?s:.*)
    | (?P<mark>['"]) (?P<quoted> [^\n]*? ) (?P=mark) (?= [ \t\r\n] | \Z )
    | (?P<open_quote> ['"] ) (?s:.*)
    | (?P<bare> [^ \t\r\n]+ )
    """,
    re.VERBOSE,
)
NAMES = ("_space_group_symop_operation_xyz", "_symmetry_equiv_pos_as_xyz")
ENDING = re.compile(r"_|data_|save_|(loop_|stop_|global_)\Z", re.IGNORECASE | re.ASCII)
DENOMINATORS = [str(n) for n in range(1, 49) if 48 % n == 0]


class Refused(Exception):
    """The first fault of a file: what is wrong, and how many bytes stand before the place."""


def words(text):
    """The form, the place, and the content with its place, of each word; a quoted word or a text field may have no end."""
    return [(form, at.start(), at.start(form), at[form]) for at in WORD.finditer(text) for form in [at.lastgroup] if form]


def lower(text):
    """ASCII capitals as small letters, and nothing else."""
    return text.translate({n: n + 32 for n in range(65, 91)})


def is_name(word):
    return word[0] == "bare" and word[3].startswith("_")


def is_ending(word):
    return word[0] == "bare" and bool(ENDING.match(word[3]))


def examine(some):
    """Refuses the first word without its end."""
    for form, at, _, _ in some:
        if form.startswith("open_"):
            raise Refused("quote" if form == "open_quote" else "text-field", at)


def operations(text):
    """The words of the operations, or the first fault by `Refused`."""
    all_words = words(text)
    places = [i for i, word in enumerate(all_words) if word[0] == "bare" and lower(word[3]) in NAMES]
    if not places:
        examine(all_words)
        raise Refused("no symmetry operations", None)
    chosen = places[0]
    first = chosen
    while first and is_name(all_words[first - 1]):
        first -= 1
    loop = all_words[first - 1] if first else None
    begin = chosen + 1
    if loop and loop[0] == "bare" and lower(loop[3]) == "loop_":
        while begin < len(all_words) and is_name(all_words[begin]):
            begin += 1
        end = next((i for i in range(begin, len(all_words)) if is_ending(all_words[i])), len(all_words))
        width, column, place = begin - first, chosen - first, loop[1]
    else:
        end = begin + (begin < len(all_words) and not is_ending(all_words[begin]))
        width, column, place = 1, 0, all_words[chosen][1]
    examine(all_words[:end])
    values = all_words[begin:end]
    if not values or len(values) % width:
        raise Refused("ragged", place)
    return values[column::width]


def triplet_fault(text):
    """The place of the first byte with which the text is the beginning of no triplet, and the kind; None of a triplet.

    Of a part the reading keeps its letters, and of what is being read: `none` nothing yet, `sign` a sign, `digits` a number's
    digits, `slash` and `below` its denominator, `term` a whole term with perhaps blanks behind it.
    """
    part, letters, state, digits = 1, "", "none", ""
    for place, byte in enumerate(text):
        letter = byte.lower() if byte in "xyzXYZ" else ""
        whole = state in ("term", "digits", "below")
        if byte in " \t\r" and state != "slash":
            state = "term" if whole else state
        elif byte in "+-" and state not in ("sign", "slash"):
            state = "sign"
        elif byte == "," and whole and part < 3:
            part, letters, state = part + 1, "", "none"
        elif byte.isdigit() and byte.isascii() and state in ("none", "sign"):
            state, digits = "digits", byte
        elif byte.isdigit() and byte.isascii() and state == "digits" and len(digits) < 3:
            digits += byte
        elif byte == "/" and state == "digits":
            state, digits = "slash", ""
        elif byte.isdigit() and byte.isascii() and state in ("slash", "below") and digits + byte in DENOMINATORS:
            state, digits = "below", digits + byte
        elif letter and letter not in letters and (state in ("none", "sign") or state == "digits" and len(digits) == 1 and digits != "0"):
            letters, state = letters + letter, "term"
        else:
            return place, kind(byte, part, letters, state, whole)
    if part == 3 and state in ("term", "digits", "below"):
        return None
    return len(text), "missing-part"


def kind(byte, part, letters, state, whole):
    """What is wrong at a byte: the first line of the table of kinds that applies."""
    letter = byte.lower() if byte in "xyzXYZ" else ""
    if byte == "#" and not (part == 3 and whole):
        return "missing-part"
    if byte == "," and whole:
        return "extra-part"
    if byte == "," and state == "none":
        return "empty"
    if letter and letter in letters:
        return "repeated"
    if letter and state in ("digits", "below"):
        return "coefficient"
    if byte.isdigit() and byte.isascii():
        return {"slash": "denominator", "below": "denominator", "digits": "coefficient"}.get(state, "unknown-sign")
    return "unknown-sign"


def triplets(text):
    """The triplets of the operations of a file, or the first fault by `Refused`."""
    read = []
    for form, at, begin, content in operations(text):
        fault = (0, "unknown-sign") if form == "field" else triplet_fault(content)
        if fault:
            raise Refused(f"symop {fault[1]}", at if form == "field" else begin + fault[0])
        read.append(content)
    return read


def answer(text):
    """The triplets of a file, or its line of refusal."""
    try:
        return triplets(text), None
    except Refused as fault:
        what, at = fault.args
        if at is None:
            return None, f"refused: {what}"
        before = text[:at]
        return None, f"refused: cif line {before.count(chr(10)) + 1} column {at - (before.rfind(chr(10)) + 1) + 1} {what}"
