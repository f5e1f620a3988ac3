"""Which line of a script is its first bad one, told from the table of commands alone."""
import re

NUMBER32, NUMBER16, SIZE = 2**32 - 1, 2**16 - 1, 2**64 - 1


def number(most):
    return lambda word: re.fullmatch(rb"[0-9]+", word) and int(word) <= most


def connection(kinds):
    return lambda word: word[:1] in kinds and len(word) > 1 and number(NUMBER32)(word[1:])


def of_printable(most):
    return lambda word: 1 <= len(word) <= most and all(33 <= byte <= 126 for byte in word)


def is_hexadecimal(word):
    return word == b"-" or re.fullmatch(rb"([0-9a-fA-F]{2})+", word)


def one_of(words):
    return lambda word: word in words


LIMITS = {b"sessions", b"servers", b"links", b"searches", b"share", b"channels", b"subscriptions", b"reads", b"writes", b"update-bytes"}
FLAGS = {b"makes-room", b"reuses-numbers", b"passes-over-gone", b"tells-unreadable", b"answers-searches", b"checks-hosts"}
CLIENT, SERVER, EITHER = connection((b"s",)), connection((b"u",)), connection((b"s", b"u"))
NAME, HOST = of_printable(255), of_printable(127)

# What the words behind a command have to be; `open` has two forms.
FORMS = {
    b"open": [(CLIENT, HOST), (SERVER,)], b"lost": [(EITHER,)], b"client": [(CLIENT, is_hexadecimal)],
    b"server": [(SERVER, is_hexadecimal)], b"found": [(NAME, SERVER)], b"search": [(HOST, is_hexadecimal)], b"sweep": [()],
    b"edit": [(number(SIZE),) * 2, (number(SIZE),) * 3], b"hold": [(EITHER,)], b"flow": [(EITHER,)], b"drain": [(EITHER, number(SIZE))],
    b"asks": [()], b"read": [(CLIENT, number(NUMBER32), number(NUMBER16), number(NUMBER32))], b"sub": [(NAME,)],
    b"props": [(NAME,)], b"rights": [(CLIENT, number(NUMBER32))],
    b"limit": [(one_of(LIMITS), number(SIZE)), (one_of({b"messages"}), number(NUMBER32)), (one_of(FLAGS), one_of({b"0", b"1"}))],
    b"age": [()], b"probe": [(number(NUMBER32),)], b"seek": [(CLIENT, number(NUMBER32), NAME)],
}


def of_text(text):
    """The lines of a script; the last one may end with the text."""
    parts = text.split(b"\n")
    return parts if parts[-1] else parts[:-1]


def is_skipped(line):
    return line == b"" or line.startswith(b"#")


def is_good(line):
    """Whether a line by itself is one of a script."""
    command, *words = line.split(b" ")
    return any(len(form) == len(words) and all(is_word(word) for is_word, word in zip(form, words))
               for form in FORMS.get(command, ()))


def is_text(lines):
    try:
        b"\n".join(lines).decode()
    except UnicodeDecodeError:
        return False
    return True


def entries(lines):
    """The places of the lines that are no lines of files, each with the place behind its files; ends at a bad one, with None."""
    place = 0
    while place < len(lines):
        line, behind = lines[place], place + 1
        if not is_skipped(line):
            if not is_good(line):
                yield place, None
                return
            if line.startswith(b"edit "):
                for size in [int(word) for word in line.split(b" ")[1:]]:
                    begin, behind = behind, behind + size
                    if behind > len(lines) or not is_text(lines[begin:behind]):
                        yield place, None
                        return
        yield place, behind
        place = behind


def first_bad(lines):
    """The place of the first bad line, or None."""
    return next((place for place, behind in entries(lines) if behind is None), None)


def entry_places(lines):
    """For each line the place of the line to which it belongs: its own, or that of an edit."""
    places = list(range(len(lines)))
    for place, behind in entries(lines):
        if behind is None:  # an edit may be bad by any line behind it
            behind = len(lines) if lines[place].startswith(b"edit ") else place
        places[place + 1:behind] = [place] * (behind - place - 1)
    return places
