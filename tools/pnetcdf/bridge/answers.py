"""What PnetCDF answered a call beside what the proved run answered."""
from . import words
from .attributes import DEFAULT_FILLS
from .calls import KINDS, got_text

LONGEST = 60    # how many characters of an answer are shown
# Codes that ncrun and PnetCDF have for the same cause.
ALIKE = {"ENOTREC": "NC_ENOTRECVAR"}


def shortened(text):
    text = text or "nothing"
    return text if len(text) <= LONGEST else text[:LONGEST] + " .."


def proved_code(call, answers):
    """The first code of the lines of a call that says more than that all went well."""
    codes = [a.code for a in answers]
    if call.before:
        codes += [item.split(" ")[1] for item in answers[-1].items]
    told = next((code for code in codes if code not in ("ok", "null")), codes[len(answers) - 1])
    return ALIKE.get(told, told)


def value_of(kind, word):
    return words.number_of(kind, int(word[1:], 16)) if kind in (words.FLOAT, words.DOUBLE) else int(word)


def in_memory(kind, number):
    """A number as a type of memory holds it, in words."""
    if kind in (words.FLOAT, words.DOUBLE):
        try:
            return words.value_words(kind, [words.pattern(kind, number)])
        except OverflowError:
            return words.value_words(kind, [DEFAULT_FILLS[kind]])
    whole = number == number and abs(number) != float("inf")
    return str(int(number)) if whole and words.fits(kind, int(number)) else str(DEFAULT_FILLS[kind])


def same_values(got, kind, proved):
    """Whether a get's values are those of the proved run, once these are in the type of memory."""
    own = got_text(got, kind)
    if own == proved or kind is None:
        return own == proved
    memory = KINDS[got.memory]
    real = {words.FLOAT, words.DOUBLE}
    if memory == kind or words.CHAR in (memory, kind) or not real & {memory, kind}:
        return False
    told = proved.split(" ") if proved else []
    return own.split(" ") == [in_memory(memory, value_of(kind, word)) for word in told]


def compare_call(part, rank, call, answers, word):
    """Where a call's answer and the run's differ: the kind of difference, what it is of, and either answer."""
    own, proved = call.code, proved_code(call, answers)
    if call.beyond and own == "NC_ERANGE" and proved == "ok":
        own = "ok"
    if own == "-":
        return
    main = answers[-1]
    if own == "NC_ERANGE" and proved == "ok" and (call.word.startswith("get_") or any(item.values for item in call.items)):
        yield "range", word(rank, call), own, proved
        return
    if own != proved:
        yield "code", word(rank, call), own, proved
        return
    if isinstance(call.got, str):
        if call.got != main.rest:
            yield "values", word(rank, call), shortened(call.got), shortened(main.rest)
    elif call.got is not None and not same_values(call.got, call.kind, main.rest):
        yield "values", word(rank, call), shortened(got_text(call.got, call.kind)), shortened(main.rest)
    for item, told in zip(call.items, main.items):
        yield from compare_item(part, rank, call, item, told, word)


def compare_item(part, rank, call, item, told, word):
    _, code, rest = (told.split(" ", 2) + [""])[:3]
    if item.code == code and (item.values is None or same_values(item.values, item.kind, rest)):
        return
    post = call if call.before else part.post(rank, item.id) or call
    what = word(rank, post) if call.before else "the request of " + word(rank, post)
    own, proved = item.text().split(" ", 1)[1], (code + " " + rest).strip()
    yield "values", what, shortened(own), shortened(proved)
