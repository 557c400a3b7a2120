#!/usr/bin/env python3
"""A second program from the paper, document 01, and from docs/FORMATS.md.

It stands on these two alone and shares nothing with the proved one; the stored outputs of
tests/cases are made from it. The first half is the paper: pages, lines, numbers, the list of steps,
walks, reads. The second half prints what `show` and `replay` print, failures included.

    python3 tests/model.py show ARGUMENT ..
    python3 tests/model.py replay ARGUMENT ..
    python3 tests/model.py check      asserts the paper's checked examples and table of counts
"""
import collections
import itertools
import os
import re
import sys

# ---------------------------------------------------------------- pages, cells, lines

LEFT, RIGHT = 0, 1
SIDES = ('LEFT', 'RIGHT')
HEAD = 4                                # bytes 0 to 3 are management
LEAST, MOST = 8, 4096                   # bounds of P

# line: word of LEFT, word of RIGHT, live side; line 4 is line 1; any other pair is line 0
LINES = {
    1: (0xFFFF0000, 0xFFFFFFFF, LEFT),
    2: (0xFFFF0000, 0xFF00FFFF, LEFT),
    3: (0xFFFF0000, 0xFF000000, LEFT),
    5: (0xFFFF0000, 0xFFFFFF00, RIGHT),
    6: (0xFF000000, 0xFFFFFF00, RIGHT),
    7: (0xFF000000, 0xFFFF0000, RIGHT),
    8: (0xFFFFFFFF, 0xFFFF0000, RIGHT),
    9: (0xFFFFFF00, 0xFFFF0000, LEFT),
    10: (0xFFFFFF00, 0xFF000000, LEFT),
}


def word(page):
    return int.from_bytes(page[0:HEAD], 'little')


def cell(page, place):
    return int.from_bytes(page[place:place + 2], 'little')


def erased(page):
    return all(byte == 0xFF for byte in page)


def line_of_words(left, right):
    for line, (of_left, of_right, _) in LINES.items():
        if (left, right) == (of_left, of_right):
            return line
    return 0


def line_of(pages):
    return line_of_words(word(pages[LEFT]), word(pages[RIGHT]))


def live_of(line):
    """The live side at a line, or None."""
    return LINES[line][2] if line else None


def live_image(pages):
    """What a read of the whole image shows, or None."""
    side = live_of(line_of(pages))
    return None if side is None else bytes(pages[side][HEAD:])


# ---------------------------------------------------------------- numbers 1 to 5, reading

def number_of_pages(pages):
    left, right = len(pages[LEFT]), len(pages[RIGHT])
    legal = left == right and left % 2 == 0 and LEAST <= left <= MOST
    return 0 if legal else 1


def number_of_request(length_of_page, offset, length):
    """Numbers 2 to 4, or 0."""
    if offset % 2 or length % 2:
        return 2
    if offset < HEAD:
        return 3
    if offset >= length_of_page or offset + length > length_of_page:
        return 4
    return 0


def number_of(pages, offset, length):
    return number_of_pages(pages) or number_of_request(len(pages[LEFT]), offset, length)


def read(pages, offset, length):
    """The first read: a number (0: none) and the asked part of the live page."""
    number = number_of(pages, offset, length)
    if number == 0 and live_of(line_of(pages)) is None:
        number = 5
    if number:
        return number, b''
    page = pages[live_of(line_of(pages))]
    return 0, bytes(page[offset:offset + length])


def read_into(pages, offset, output):
    """The second read: a number (0: none) and what the lent output holds afterwards."""
    number, part = read(pages, offset, len(output))
    if number == 5:
        return number, b'\xFF' * len(output)
    return number, bytes(output) if number else part


# ---------------------------------------------------------------- the list of steps

# what: 'erase', 'program' (place 0 or 2) or 'image' (place is the cell's page offset, its number
# is that of the new image); line: that of the pages before the step
Entry = collections.namedtuple('Entry', 'line what side place number deciding')


def erase(side):
    return ('erase', side, None, None, False)


def program(side, place, number, deciding=False):
    return ('program', side, place, number, deciding)


def image_cells(side, length_of_page):
    return [('image', side, place, None, False) for place in range(HEAD, length_of_page, 2)]


def tidying(line):
    return {
        2: [program(RIGHT, 0, 0x0000)],
        5: [program(LEFT, 2, 0xFF00), program(RIGHT, 0, 0x0000)],
        6: [program(RIGHT, 0, 0x0000)],
        9: [program(RIGHT, 2, 0xFF00), program(LEFT, 0, 0x0000)],
        10: [program(LEFT, 0, 0x0000)],
    }.get(line, [])


def spoil_and_erase(deciding):
    return [program(RIGHT, 2, 0x0000, deciding), erase(LEFT), erase(RIGHT)]


def steps_of_save(length_of_page, line, was_erased):
    if line == 0:
        return ([] if was_erased else spoil_and_erase(False)) \
            + image_cells(LEFT, length_of_page) \
            + [program(LEFT, 0, 0x0000, True), program(RIGHT, 2, 0xFF00), program(RIGHT, 0, 0x0000)]
    old = live_of(line)
    new = RIGHT if old == LEFT else LEFT
    kept_erased = was_erased and line in (1, 8)
    return tidying(line) \
        + ([] if kept_erased else [erase(new)]) \
        + image_cells(new, length_of_page) \
        + [program(new, 0, 0xFF00, True), program(old, 2, 0xFF00), program(new, 0, 0x0000)]


def steps_of_format(line, was_erased):
    return [] if line == 0 and was_erased else spoil_and_erase(True)


def next_word(before, what, place, number):
    """The word of a page after a step on it."""
    if what == 'erase':
        return 0xFFFFFFFF
    if what == 'image':
        return before
    shift = 8 * place
    return before & (number << shift | 0xFFFFFFFF ^ 0xFFFF << shift)


def words_at(line, was_erased):
    """The words that a list begins with; two that are in no row stand for line 0's others."""
    if line:
        return list(LINES[line][:2])
    return [0xFFFFFFFF] * 2 if was_erased else [0, 0]


def list_of(kind, length_of_page, line, was_erased):
    """The list of steps of a save or format, each with the line before it."""
    if kind == 'save':
        steps = steps_of_save(length_of_page, line, was_erased)
    else:
        steps = steps_of_format(line, was_erased)
    words, entries = words_at(line, was_erased), []
    for what, side, place, number, deciding in steps:
        entries.append(Entry(line_of_words(*words), what, side, place, number, deciding))
        words[side] = next_word(words[side], what, place, number)
    return entries


def deciding_place(entries):
    """The place of the deciding store, counted from 1, or 0."""
    return next((at for at, entry in enumerate(entries, 1) if entry.deciding), 0)


# ---------------------------------------------------------------- walks, steps, number 6

Walk = collections.namedtuple('Walk', 'kind P offset length line erased place')


def begin(kind, pages, offset=HEAD, data=b''):
    """A number (0: none) and the walk begun."""
    number = number_of_pages(pages) if kind == 'format' else number_of(pages, offset, len(data))
    if number:
        return number, None
    line = line_of(pages)
    if line == 0:
        was_erased = erased(pages[LEFT]) and erased(pages[RIGHT])
    else:
        was_erased = erased(pages[1 - live_of(line)])
    return 0, Walk(kind, len(pages[LEFT]), offset, len(data), line, was_erased, 0)


def entries_of(walk):
    return list_of(walk.kind, walk.P, walk.line, walk.erased)


def lay(image, offset, data):
    """The data laid into an image at a page offset."""
    at = offset - HEAD
    return image[:at] + data + image[at + len(data):]


def new_number(pages, walk, place, data):
    """The number of the new image's cell at a page offset."""
    side = live_of(line_of(pages))
    for_none = b'\xFF' * (walk.P - HEAD)
    image = for_none if side is None else bytes(pages[side][HEAD:])
    return cell(lay(image, walk.offset, data), place - HEAD)


def fits_by_numbers(pages, walk, data, total):
    """False where a step gives 6 before it looks at any byte of a page."""
    return (number_of_pages(pages) == 0 and number_of_request(walk.P, walk.offset, walk.length) == 0
            and (walk.line == 0 or walk.line in LINES)
            and len(pages[LEFT]) == walk.P and len(data) == walk.length
            and (walk.kind == 'save' or (walk.offset, walk.length) == (HEAD, 0))
            and 0 <= walk.place <= total)


def resolved(pages, walk, data, entries):
    """The flash step at the walk's place, an image cell with its number."""
    entry = entries[walk.place]
    if entry.what == 'image':
        return entry._replace(number=new_number(pages, walk, entry.place, data))
    return entry


def step(pages, walk, data, entries=None):
    """6, 'ended' or the flash step that was made; and the walk afterwards."""
    entries = entries_of(walk) if entries is None else entries
    if not fits_by_numbers(pages, walk, data, len(entries)):
        return 6, walk
    if walk.place == len(entries):
        return 'ended', walk
    if line_of(pages) != entries[walk.place].line:
        return 6, walk
    entry = resolved(pages, walk, data, entries)
    page = pages[entry.side]
    if entry.what == 'erase':
        page[:] = b'\xFF' * len(page)
    elif entry.number & ~cell(page, entry.place):
        return 6, walk
    else:
        page[entry.place:entry.place + 2] = entry.number.to_bytes(2, 'little')
    return entry, walk._replace(place=walk.place + 1)


class Board:
    """Two pages and the walk in hand with its data. A cut loses all but the pages."""

    def __init__(self, left, right):
        self.pages = [bytearray(left), bytearray(right)]
        self.cut()

    def cut(self):
        self.walk, self.data, self.entries = None, b'', []

    def begin(self, kind, offset=HEAD, data=b''):
        number, walk = begin(kind, self.pages, offset, data)
        if number == 0:
            self.walk, self.data, self.entries = walk, data, entries_of(walk)
        return number

    def step(self, data=None):
        """None with no walk; else 6, 'ended' or the flash step made. None: the held data."""
        if self.walk is None:
            return None
        if data is None or len(data) == len(self.data):
            data = self.data
        answer, self.walk = step(self.pages, self.walk, data, self.entries)
        return answer


# ---------------------------------------------------------------- bytes from outside, faults

VERSION = '0.6.0'


class Bad(Exception):
    """What is wrong with an input."""


def outside(data):
    """Bytes of a name, a word or a comment as they are printed."""
    return ''.join('\\\\' if byte == 0x5C else chr(byte) if 0x20 <= byte <= 0x7E
                   else f'\\x{byte:02X}' for byte in data)


def short(data):
    """A word as a fault prints it."""
    return outside(data[:40])


# ---------------------------------------------------------------- arguments

LINES_OF_HELP = {
    'show': """\
show [--json] LEFT RIGHT
show [--json] --one FILE LEFT-AT RIGHT-AT LENGTH
  what two dumps of pages hold; --json: as one JSON object
  --one: both pages are in FILE, LENGTH bytes each, from the bytes LEFT-AT and RIGHT-AT on
  a file - is standard input
ok: help""".split('\n'),
    'replay': """\
replay [--all | --cuts] [LEFT RIGHT SCRIPT]
replay [--all | --cuts] --one FILE LEFT-AT RIGHT-AT LENGTH SCRIPT
  a script of calls and power cuts on copies of two dumps of pages
  --all: every step has its lines; --cuts: the last save or format is cut after each of its steps
  --one: both pages are in FILE, LENGTH bytes each, from the bytes LEFT-AT and RIGHT-AT on
  a file - is standard input; with no files the sample in samples/ is replayed
  a line of SCRIPT: save OFFSET HEX, format, step, step N, step all, step with HEX,
  read OFFSET LENGTH, copy OFFSET LENGTH, cut; # and what follows is a comment
ok: help""".split('\n'),
}
OPTIONS = {'show': (b'--json',), 'replay': (b'--all', b'--cuts')}
ALONE = (b'--help', b'--version')
# how many words may follow, by the program and by whether --one stands; which of them are names
COUNTS = {('show', False): (2,), ('show', True): (4,),
          ('replay', False): (0, 3), ('replay', True): (5,)}
NAMES = {False: (0, 1, 2), True: (0, 4)}
LONGEST_NAME = 4095

# option: None or one of OPTIONS or ALONE; words: what follows it and --one
Request = collections.namedtuple('Request', 'option one words')


def usage(program):
    return Bad('usage: ' + ', or '.join(LINES_OF_HELP[program][:2]))


def request_of(program, arguments):
    words, option, legal = list(arguments), None, (b'--one',) + ALONE
    if words and words[0] in OPTIONS[program]:
        option, legal = words.pop(0), (b'--one',)
    if words and words[0].startswith(b'--') and words[0] not in legal:
        raise Bad(f"unknown option '{short(words[0])}', --help says which there are")
    if words and words[0] in ALONE:
        option = words.pop(0)
        if words:
            raise usage(program)
        return Request(option, False, ())
    one = words[:1] == [b'--one']
    words = words[1:] if one else words
    if len(words) not in COUNTS[program, one]:
        raise usage(program)
    return Request(option, one, words)


def check_names(arguments, request):
    before = len(arguments) - len(request.words)
    names = {before + at + 1: request.words[at]
             for at in NAMES[request.one] if at < len(request.words)}
    for place, name in names.items():
        if len(name) > LONGEST_NAME:
            raise Bad(f'argument {place} is too long for a file name')
    if list(names.values()).count(b'-') > 1:
        raise Bad('standard input is named twice')


# ---------------------------------------------------------------- files

TEXTS_OF_ERRORS = {
    1: 'not permitted', 5: 'the device failed', 6: 'no such device', 11: 'nothing to read yet',
    12: 'no memory is left', 20: 'a part of the name is no directory',
    22: 'not a name or not readable', 23: 'too many open files', 24: 'too many open files',
    36: 'file name too long', 40: 'too many links', 75: 'the file is too large',
}
NO_SAMPLE = '; run replay in the folder of README.md, or name LEFT, RIGHT and SCRIPT'


def called(name):
    """A file's name as it is printed."""
    return 'standard input' if name == b'-' else outside(name)


def fault_of_file(number):
    fault = {2: 'no such file', 21: 'it is a directory', 13: 'it may not be read'}.get(number)
    if fault is None:
        text = TEXTS_OF_ERRORS.get(number)
        fault = f'reading it failed with error {number}' + (f': {text}' if text else '')
    return fault


def first_bytes(file, most):
    """The first bytes of an open file, at most so many."""
    parts, room = [], most
    while room:
        parts.append(os.read(file, min(room, 1 << 20)))
        room -= len(parts[-1])
        if not parts[-1]:
            break
    return b''.join(parts)


standard_input = None                   # its bytes; None: they are read from this process's own


NO_NAME = 22                            # the error of a name that isn't UTF-8


def is_text(name):
    try:
        name.decode()
    except UnicodeDecodeError:
        return False
    return True


def load(name, most, sample=False):
    """The file's bytes, of an over-long one only the first `most`."""
    if name == b'-' and standard_input is not None:
        return standard_input[:most]
    file = None
    try:
        if not is_text(name):
            raise OSError(NO_NAME, '')
        file = 0 if name == b'-' else os.open(name, os.O_RDONLY)
        return first_bytes(file, most)
    except OSError as fault:
        hint = NO_SAMPLE if sample else ''
        raise Bad(f'{called(name)}: {fault_of_file(fault.errno)}{hint}')
    finally:
        if file:
            os.close(file)


# ---------------------------------------------------------------- the two pages

# one: both are from one file; froms: the places in it; pages: the bytes
Dumps = collections.namedtuple('Dumps', 'names one froms pages')


def fault_of_lengths(left, right):
    if left > MOST and right > MOST:
        return f'P is above {MOST}'
    if left != right:
        return 'the pages differ in length'
    return 'P is odd' if left % 2 else f'P is below {LEAST}'


def count_of_bytes(count):
    return '1 byte' if count == 1 else f'{count} bytes'


def size_of_page(page):
    return count_of_bytes(len(page)) if len(page) <= MOST else f'more than {MOST} bytes'


def two_dumps(left_name, right_name, sample=False):
    pages = load(left_name, MOST + 1, sample), load(right_name, MOST + 1, sample)
    if number_of_pages(pages):
        left, right = pages
        raise Bad(f'number 1: {called(left_name)} has {size_of_page(left)} and '
                  f'{called(right_name)} has {size_of_page(right)}: '
                  + fault_of_lengths(len(left), len(right)))
    return Dumps((left_name, right_name), False, (0, 0), pages)


def number_in(text, digits, base):
    """The number that a word says, None where it says none; one of many digits is cut short."""
    return int(text.lstrip(b'0')[:20] or b'0', base) if re.fullmatch(digits, text) else None


def number_of_one(what, text):
    if text.startswith(b'0x'):
        number = number_in(text[2:], b'[0-9A-Fa-f]+', 16)
    else:
        number = number_in(text, b'[0-9]+', 10)
    if number is None:
        raise Bad(f"{what}: '{short(text)}' is no number")
    if number > 0xFFFFFFFF:
        raise Bad(f'{what}: the number {short(text)} is past 32 bits')
    return number


def one_dump(name, *numbers):
    whats = 'LEFT-AT', 'RIGHT-AT', 'LENGTH'
    *froms, length = [number_of_one(*pair) for pair in zip(whats, numbers)]
    if length % 2 or not LEAST <= length <= MOST:
        raise Bad(f'number 1: LENGTH is {length}: {fault_of_lengths(length, length)}')
    held = load(name, max(froms) + length)
    for side, at in zip(SIDES, froms):
        if at + length > len(held):
            raise Bad(f'{called(name)} has {count_of_bytes(len(held))}: {side}, {length} bytes '
                      f'from byte {at} on, goes past its end')
    return Dumps((name, name), True, froms, [held[at:at + length] for at in froms])


def lines_of_names(dumps):
    for side in (LEFT, RIGHT):
        place = f' from byte {dumps.froms[side]} on' if dumps.one else ''
        yield f'{SIDES[side]:5} {called(dumps.names[side])}{place}'


# ---------------------------------------------------------------- rows of an image

def row(offset, image, at, changed=()):
    places = ''
    for place in range(at, at + 16):
        if place >= len(image):
            places += '    '
        else:
            places += ('[%02X]' if place in changed else ' %02X ') % image[place]
    letters = ''.join(chr(b) if 0x20 <= b <= 0x7E else '.' for b in image[at:at + 16])
    return f'{offset:6} {places} |{letters}|'


def rows(image, passed_over, ending, changed=()):
    """The rows; each run of rows of which passed_over says so is one line."""
    starts = range(0, len(image), 16)
    for skip, run in itertools.groupby(starts, lambda at: passed_over(at, image[at:at + 16])):
        run = list(run)
        if skip:
            last = min(run[-1] + 16, len(image)) - 1
            yield f'{HEAD + run[0]:6} to {HEAD + last}  {ending}'
        else:
            yield from (row(HEAD + at, image, at, changed) for at in run)


def whole_rows(image):
    return list(rows(image, lambda _, part: erased(part), 'all FF'))


def changed_rows(image, before):
    changed = {at for at in range(len(image)) if image[at] != before[at]}
    return list(rows(image, lambda at, part: part == before[at:at + 16], 'as before', changed))


def hex_of(part):
    return ' '.join('%02X' % byte for byte in part) or 'no bytes'


# ---------------------------------------------------------------- show

OTHERS = {
    'erased': 'is erased',
    'undecided': 'holds a save not yet decided',
    'no settings': 'holds no settings: its image is all FF',
    'before': 'holds the settings before',
}
NOTES = {
    'one file': 'LEFT and RIGHT are one file',
    'shared bytes': 'LEFT and RIGHT share bytes of the file',
    'same bytes': 'LEFT and RIGHT hold the same bytes, are they one file?',
    'changed over': 'with LEFT and RIGHT changed over this is line 2',
}


def other_of(page):
    """What a page that isn't live holds beside one that is."""
    if erased(page):
        return 'erased'
    if word(page) == 0xFFFFFFFF:
        return 'undecided'
    return 'no settings' if erased(page[HEAD:]) else 'before'


def notes_of(dumps):
    (left, right), (left_at, right_at) = dumps.pages, dumps.froms
    notes = []
    if left_at == right_at if dumps.one else dumps.names[LEFT] == dumps.names[RIGHT]:
        notes.append('one file')
    if dumps.one and 0 < abs(left_at - right_at) < len(left):
        notes.append('shared bytes')
    if not notes and left == right and not erased(left):
        notes.append('same bytes')
    if line_of((left, right)) == 0 and line_of((right, left)):
        notes.append('changed over')
    return notes


def text_of(entry):
    """A flash step in words."""
    side = SIDES[entry.side]
    if entry.what == 'erase':
        text = f'erase {side}'
    elif entry.what == 'image':
        text = f'program the image cell at {entry.place} of {side} to {entry.number:04X}'
    else:
        text = f'program cell {entry.place} of {side} to {entry.number:04X}'
    return text + (', the deciding store' if entry.deciding else '')


def lines_of_word(pages):
    for side, name in enumerate(SIDES):
        valid, active, dead, spare = pages[side][0:HEAD]
        yield (f'{name:5} word {word(pages[side]):08X}: Valid {valid:02X}, Active {active:02X}, '
               f'Dead {dead:02X}, Spare {spare:02X}')


def lines_of_live(pages, walk):
    live = live_of(walk.line)
    if live is None:
        yield 'line 0: no page is live, a read is answered 5'
        yield 'both pages are erased' if walk.erased else 'the pages are not both erased'
    else:
        yield f'line {walk.line}: {SIDES[live]} is live'
        yield f'the other page, {SIDES[1 - live]}, {OTHERS[other_of(pages[1 - live])]}'


def lines_of_steps(entries):
    yield f'a save from here takes {len(entries)} steps:'
    cells = [at for at, entry in enumerate(entries, 1) if entry.what == 'image']
    for at, entry in enumerate(entries, 1):
        if entry.what != 'image':
            yield f'  step {at}: {text_of(entry)}'
        elif at == cells[0]:
            yield f'  steps {at} to {cells[-1]}: program the image cells of {SIDES[entry.side]}'


def lines_of_images(pages, walk):
    if walk.line:
        yield f'the image of {SIDES[live_of(walk.line)]}:'
        yield from whole_rows(live_image(pages))
    elif not walk.erased:
        for side in (LEFT, RIGHT):
            yield f'the image of {SIDES[side]}, which is not live:'
            yield from whole_rows(pages[side][HEAD:])


def lines_of_show(dumps):
    pages, length = dumps.pages, len(dumps.pages[LEFT])
    walk = begin('save', pages)[1]
    yield from lines_of_names(dumps)
    yield (f'P = {length}: an image of {length - HEAD} bytes from page offset {HEAD} on, '
           f'{(length - HEAD) // 2} cells')
    yield from lines_of_word(pages)
    yield from lines_of_live(pages, walk)
    yield from (f'note: {NOTES[note]}' for note in notes_of(dumps))
    yield from lines_of_steps(entries_of(walk))
    yield from lines_of_images(pages, walk)
    yield 'ok: shown'


# ---------------------------------------------------------------- show --json

def json_of(value):
    """A value as JSON; its strings are printable ASCII already."""
    if value is None or isinstance(value, bool):
        return {None: 'null', True: 'true', False: 'false'}[value]
    if isinstance(value, int):
        return str(value)
    if isinstance(value, str):
        return '"' + value.replace('\\', '\\\\').replace('"', '\\"') + '"'
    if isinstance(value, list):
        return '[' + ', '.join(map(json_of, value)) + ']'
    return '{' + ', '.join(f'{json_of(key)}: {json_of(held)}' for key, held in value.items()) + '}'


def object_of_page(dumps, side):
    page = dumps.pages[side]
    return {'file': called(dumps.names[side]), 'from': dumps.froms[side],
            'word': f'{word(page):08X}', 'erased': erased(page), 'image': page[HEAD:].hex().upper()}


def object_of_show(dumps):
    walk = begin('save', dumps.pages)[1]
    live, entries = live_of(walk.line), entries_of(walk)
    return {'ok': True, 'version': VERSION, 'page': len(dumps.pages[LEFT]),
            'left': object_of_page(dumps, LEFT), 'right': object_of_page(dumps, RIGHT),
            'line': walk.line, 'live': None if live is None else SIDES[live],
            'other': None if live is None else other_of(dumps.pages[1 - live]),
            'steps': len(entries), 'deciding': deciding_place(entries),
            'notes': notes_of(dumps)}


def object_of_fault(fault):
    return {'ok': False, 'version': VERSION, 'failed': str(fault)}


def show(arguments):
    as_json = arguments[:1] == [b'--json']
    try:
        request = request_of('show', arguments)
        if request.option in ALONE:
            return lines_alone('show', request.option)
        check_names(arguments, request)
        dumps = (one_dump if request.one else two_dumps)(*request.words)
        return [json_of(object_of_show(dumps))] if as_json else lines_of_show(dumps)
    except Bad as fault:
        if as_json:
            return [json_of(object_of_fault(fault))]
        raise


def lines_alone(program, option):
    return [f'ok: Fretgalaxy {VERSION}'] if option == b'--version' else LINES_OF_HELP[program]


# ---------------------------------------------------------------- scripts

LONGEST_SCRIPT = 262143
MARK = b'\xEF\xBB\xBF'

# text: the line as it is printed, its comment included
Call = collections.namedtuple('Call', 'line text kind offset length data count')
# apart: an empty line stands before it
Heading = collections.namedtuple('Heading', 'text apart')


def take_number(words):
    if not words:
        raise Bad('a number is missing')
    text = words.pop(0)
    number = number_in(text, b'[0-9]+', 10)
    if number is None:
        raise Bad(f"'{short(text)}' is no number")
    if number > 0xFFFFFFFF:
        raise Bad(f'the number {short(text)} is past 32 bits')
    return number


def take_bytes(words):
    text = words.pop(0) if words else b''
    if not re.fullmatch(b'[0-9A-Fa-f]*', text):
        raise Bad(f"'{short(text)}' is not hexadecimal")
    if len(text) % 2:
        raise Bad('odd number of hexadecimal digits')
    check_size(len(text) // 2)
    return bytes.fromhex(text.decode('ascii'))


def check_size(length):
    if length > MOST:
        raise Bad(f'more than {MOST} bytes')


def take_step(words):
    """Data (None: the held) and how many steps (None: all)."""
    if not words:
        return None, 1
    if words[0] == b'all':
        words.pop(0)
        return None, None
    if words[0] == b'with':
        words.pop(0)
        return take_bytes(words), 1
    return None, take_number(words)


def call_of(line, text, words):
    kind = words.pop(0)
    offset = length = data = count = None
    if kind == b'save':
        offset, data = take_number(words), take_bytes(words)
    elif kind == b'step':
        data, count = take_step(words)
    elif kind in (b'read', b'copy'):
        offset, length = take_number(words), take_number(words)
        if kind == b'copy':
            check_size(length)
    elif kind not in (b'format', b'cut'):
        raise Bad(f"unknown word '{short(kind)}'")
    if words:
        raise Bad(f"one word too many: '{short(words[0])}'")
    return Call(line, text, kind.decode('ascii'), offset, length, data, count)


def parts_of_line(line):
    """A line from its first word to its last, tabs as blanks, and its comment as it is printed."""
    text, sign, rest = line.removesuffix(b'\r').partition(b'#')
    return text.replace(b'\t', b' ').strip(b' '), outside((sign + rest).rstrip(b' \t\r'))


def items_of(name, script):
    """The calls and the headings of a script, in its order."""
    items, after_heading = [], False
    for at, line in enumerate(script.removeprefix(MARK).split(b'\n'), 1):
        text, comment = parts_of_line(line)
        heading = comment != '' and text == b''
        if heading:
            items.append(Heading(comment, not after_heading))
        elif text:
            printed = outside(text) + (f'  {comment}' if comment else '')
            try:
                items.append(call_of(at, printed, [word for word in text.split(b' ') if word]))
            except Bad as fault:
                raise Bad(f'{called(name)} line {at}: {fault}')
        after_heading = heading
    return items


def load_script(name, sample):
    script = load(name, LONGEST_SCRIPT + 1, sample)
    if len(script) > LONGEST_SCRIPT:
        raise Bad(f'{called(name)}: more than {LONGEST_SCRIPT} bytes')
    items = items_of(name, script)
    if not calls_of(items):
        raise Bad(f'{called(name)}: no call in it')
    return items


def calls_of(items):
    return [item for item in items if isinstance(item, Call)]


# ---------------------------------------------------------------- verdicts

def verdict(now, old, new, of):
    """What a read shows beside the image before and the one wanted, and how that is counted."""
    if now is None and old is None:
        return f'a read is answered 5, as before the {of}', 'old image'
    if now is None and of == 'format':
        return 'a read is answered 5, as the format has it', 'new image'
    if now is not None and now == old:
        too = ', which is the new one too' if now == new and of != 'cut' else ''
        return f'a read shows the old image, whole{too}', 'old image'
    if now is not None and now == new:
        return 'a read shows the new image, whole', 'new image'
    return 'a read shows ANOTHER IMAGE', 'another'


def image_wanted(pages, call):
    """What a read is to show after a save or format, None for no image."""
    if call.kind == 'format':
        return None
    for_none = b'\xFF' * (len(pages[LEFT]) - HEAD)
    return lay(live_image(pages) or for_none, call.offset, call.data)


def text_of_counts(counts):
    return ', '.join(f'{what}: {counts[what]}' for what in ('old image', 'new image', 'another'))


# ---------------------------------------------------------------- replay

MEANINGS = {
    1: 'the pages have no legal length',
    2: 'the offset or the length is odd',
    3: 'the offset is below 4',
    4: 'past the end of the page',
    5: 'no page is live',
    6: "the step doesn't fit, nothing is changed",
}


def text_of_number(number):
    return f'number {number}: {MEANINGS[number]}'


def text_of_live(line):
    live = live_of(line)
    return f'line {line}, ' + ('no page is live' if live is None else f'{SIDES[live]} is live')


def text_of_begun(entries):
    if not entries:
        return '0 steps, none is needed'
    return f'{len(entries)} steps, the deciding store is step {deciding_place(entries)}'


def begin_call(board, call):
    """Begins the save or format of a call."""
    return board.begin(call.kind, *((call.offset, call.data) if call.kind == 'save' else ()))


class Replay:
    """A board, what a read of the whole image showed last, and the counts of verdicts."""

    def __init__(self, pages, every):
        self.board = Board(*pages)
        self.every = every              # --all: image cells have lines of their own
        self.shown = None
        self.wanted = None              # old image, new image and kind of the walk in hand
        self.cuts, self.ends = collections.Counter(), collections.Counter()

    def read_lines(self, head, now):
        """What a read of the whole image shows, after the head of the line."""
        before, self.shown = self.shown, now
        if now is None:
            return [head + 'a read is answered 5']
        if now == before:
            return [head + 'a read shows the same']
        return [head + 'a read shows'] + (changed_rows(now, before) if before else whole_rows(now))

    def state(self):
        """The words, the line, the live page and what a read shows."""
        pages = self.board.pages
        head = '  ' + ', '.join(f'{SIDES[s]} {word(pages[s]):08X}' for s in (LEFT, RIGHT))
        return self.read_lines(head + f': {text_of_live(line_of(pages))}; ', live_image(pages))

    def judged(self, counts, old, new, of):
        text, which = verdict(live_image(self.board.pages), old, new, of)
        counts[which] += 1
        return ['  ' + text]

    def begin(self, call):
        number = begin_call(self.board, call)
        if number:
            return ['  ' + text_of_number(number)]
        pages = self.board.pages        # a beginning changes no byte
        self.wanted = live_image(pages), image_wanted(pages, call), call.kind
        lines = ['  begun: ' + text_of_begun(self.board.entries)]
        return lines if self.board.entries else lines + self.judged(self.ends, *self.wanted)

    def folds(self, call, answer):
        """Whether a step is told together with the image cells beside it."""
        return (isinstance(answer, Entry) and answer.what == 'image'
                and call.data is None and not self.every)

    def folded(self, cells):
        """The line of image cells that are told together: places, and what a read shows then."""
        if not cells:
            return []
        (first, _), (last, now), total = cells[0], cells[-1], len(self.board.entries)
        side = SIDES[self.board.entries[first - 1].side]
        if first == last:
            head = f'  step {first} of {total}: program an image cell of {side}; '
        else:
            head = f'  steps {first} to {last} of {total}: program image cells of {side}; '
        return self.read_lines(head, now)

    def answered(self, call, answer):
        """The lines of a step that is told by itself."""
        if answer is None:
            return ['  no walk is in hand: nothing happens']
        if answer == 6:
            return ['  ' + text_of_number(6)]
        lines = [] if call.data is None \
            else ['  the held data was handed over in place of these bytes']
        if answer == 'ended':
            return lines + ['  ended: no step is left']
        place, total = self.board.walk.place, len(self.board.entries)
        lines += [f'  step {place} of {total}: {text_of(answer)}'] + self.state()
        return lines if place < total else lines + self.judged(self.ends, *self.wanted)

    def steps(self, call):
        lines, cells, made, count = [], [], True, 0
        while made and count != call.count:
            answer = self.board.step(call.data)
            made, count = isinstance(answer, Entry), count + 1
            if self.folds(call, answer):
                cells.append((self.board.walk.place, live_image(self.board.pages)))
            else:
                lines += self.folded(cells) + self.answered(call, answer)
                cells = []
        return lines + self.folded(cells)

    def cut(self):
        text = '  the power is cut' + self.text_of_cut()
        now = live_image(self.board.pages)
        wanted = (now, now, 'cut') if self.board.walk is None else self.wanted
        self.board.cut()
        return [text] + self.state() + self.judged(self.cuts, *wanted)

    def text_of_cut(self):
        if self.board.walk is None:
            return ': no save or format is under way'
        walk, total = self.board.walk, len(self.board.entries)
        if walk.place == total:
            return f" after the {walk.kind}'s end: the {walk.kind} stays"
        if walk.place == 0:
            return f' before step 1 of {total}: all stays as before the {walk.kind}'
        if walk.place < deciding_place(self.board.entries):
            return (f' after step {walk.place} of {total}, before the deciding store: '
                    f'all stays as before the {walk.kind}')
        return (f' after step {walk.place} of {total}, at or after the deciding store: '
                f'the {walk.kind} stays')

    def read(self, call):
        number, part = read(self.board.pages, call.offset, call.length)
        return ['  ' + (text_of_number(number) if number else f'given: {hex_of(part)}')]

    def copy(self, call):
        number, output = read_into(self.board.pages, call.offset, bytes(call.length))
        if number:
            return [f'  {text_of_number(number)}; the output holds {hex_of(output)}']
        return [f'  given: {hex_of(output)}']

    def make(self, call):
        """The lines of a call's answer."""
        if call.kind in ('save', 'format'):
            return self.begin(call)
        if call.kind == 'step':
            return self.steps(call)
        if call.kind == 'cut':
            return self.cut()
        return self.read(call) if call.kind == 'read' else self.copy(call)


def lines_of_replay(pages, items, every):
    replay = Replay(pages, every)
    yield 'at first'
    yield from replay.state()
    for item in items:
        if isinstance(item, Heading):
            yield from [''] * item.apart + [item.text]
        else:
            yield f'script line {item.line}: {item.text}'
            yield from replay.make(item)
    for what, counts in (('cuts', replay.cuts), ('ended', replay.ends)):
        yield f'{what}: {sum(counts.values())}, {text_of_counts(counts)}'
    if replay.cuts['another'] or replay.ends['another']:
        yield 'failed: a read showed another image'
    else:
        yield f'ok: replayed, calls: {len(calls_of(items))}'


# ---------------------------------------------------------------- replay --cuts

def last_begun(pages, calls):
    """The last save or format that was begun and the pages as they were there, or None."""
    board, last = Board(*pages), None
    for call in calls:
        before = [bytes(page) for page in board.pages]
        if call.kind in ('save', 'format') and begin_call(board, call) == 0:
            last = call, before
        elif call.kind == 'cut':
            board.cut()
        elif call.kind == 'step':
            count = 0
            while count != call.count and isinstance(board.step(call.data), Entry):
                count += 1
    return last


def lines_of_cuts(call, before):
    board = Board(*before)
    old, new = live_image(board.pages), image_wanted(board.pages, call)
    begin_call(board, call)
    total, counts = len(board.entries), collections.Counter()
    yield f'script line {call.line}: {call.text}'
    yield f'  begun at line {line_of(before)}: {text_of_begun(board.entries)}'
    for made in range(total + 1):       # a cut keeps the pages, so one walk serves for all cuts
        text, which = verdict(live_image(board.pages), old, new, call.kind)
        counts[which] += 1
        yield f'  cut after {made} of {total} steps: {text_of_live(line_of(board.pages))}; {text}'
        board.step()
    yield (f'{"failed" if counts["another"] else "ok"}: {total + 1} cut{"s" if total else ""}, '
           + text_of_counts(counts))


SAMPLE = b'samples/story-left.bin', b'samples/story-right.bin', b'samples/story.txt'


def replay(arguments):
    request = request_of('replay', arguments)
    if request.option in ALONE:
        return lines_alone('replay', request.option)
    check_names(arguments, request)
    sample = not request.words
    *of_pages, script = request.words or SAMPLE
    dumps = one_dump(*of_pages) if request.one else two_dumps(*of_pages, sample)
    items = load_script(script, sample)
    head = [*lines_of_names(dumps), f'P = {len(dumps.pages[LEFT])}']
    if request.option != b'--cuts':
        every = request.option == b'--all'
        return itertools.chain(head, lines_of_replay(dumps.pages, items, every))
    last = last_begun(dumps.pages, calls_of(items))
    if last is None:
        raise Bad(f'{called(script)}: no save or format in it is begun')
    return itertools.chain(head, lines_of_cuts(*last))


def output(arguments, stdin=None):
    """All that the program named first prints, with these bytes as standard input."""
    global standard_input
    standard_input = stdin
    program, *arguments = [os.fsencode(argument) for argument in arguments]
    try:
        lines = list({b'show': show, b'replay': replay}[program](arguments))
    except Bad as fault:
        lines = [f'failed: {fault}']
    return ('\n'.join(lines) + '\n').encode('ascii')


def phrases():
    """What the tables above print, as docs/FORMATS.md quotes it."""
    yield f'`ok: Fretgalaxy {VERSION}`'
    yield from (f'`the other page, RIGHT, {other}`' for other in OTHERS.values())
    yield from (f'`note: {note}`' for note in NOTES.values())
    yield from (f'"{key}"' for key in [*OTHERS, *NOTES])
    yield from (f'`{text_of_number(number)}`' for number in MEANINGS)
    yield from (f'`{text}`' for text in TEXTS_OF_ERRORS.values())
    yield NO_SAMPLE


# ---------------------------------------------------------------- the paper's examples

def walked(board, count=None):
    """Steps to the end, or this many; how many were made."""
    made = 0
    while made != count and isinstance(board.step(), Entry):
        made += 1
    return made


def saved(board, offset, data, count=None):
    assert board.begin('save', offset, bytes.fromhex(data)) == 0
    made = walked(board, count)
    board.cut()
    return made


def is_at(board, line, left, right):
    return (line_of(board.pages) == line and board.pages[LEFT] == bytes.fromhex(left)
            and board.pages[RIGHT] == bytes.fromhex(right))


def check_walks():
    blank = b'\xFF' * 8
    assert read_into((blank, blank), 4, bytes(4)) == (5, b'\xFF' * 4)
    board = Board(blank, blank)
    assert saved(board, 4, '0102') == 5
    assert is_at(board, 3, '00 00 FF FF 01 02 FF FF', '00 00 00 FF FF FF FF FF')
    for count, image in ((3, '0102FFFF'), (4, '01020A0B')):
        other = Board(*board.pages)
        saved(other, 6, '0A0B', count)
        assert read(other.pages, 4, 4) == (0, bytes.fromhex(image))
    assert saved(board, 6, '0A0B') == 6
    assert is_at(board, 7, '00 00 00 FF 01 02 FF FF', '00 00 FF FF 01 02 0A 0B')
    assert board.begin('format') == 0 and walked(board, 1) == 1
    assert board.pages[RIGHT] == bytes.fromhex('00 00 00 00 01 02 0A 0B')
    assert read(board.pages, 4, 4) == (5, b'')


def check_numbers():
    pages = bytes.fromhex('0000FFFF01020304'), bytes.fromhex('000000FFFFFFFFFF')
    asked = {(5, 2): 2, (3, 2): 2, (2, 2): 3, (8, 0): 4, (6, 2): 0, (6, 4): 4}
    for (offset, length), number in asked.items():
        assert read(pages, offset, length)[0] == number
        assert begin('save', pages, offset, bytes(length))[0] == number
    assert line_of_words(0xFFFF0000, 0xFFFF0000) == 0
    assert line_of_words(0xFFFFFF00, 0xFFFFFFFF) == 0
    for length, number in ((6, 1), (4098, 1), (4096, 0)):
        assert number_of_pages((bytes(length), bytes(length))) == number


def check_counts():
    for length in (8, 24, 4096):
        cells = (length - HEAD) // 2
        table = {(0, True): 3, (0, False): 6, (1, True): 3, (8, True): 3, (1, False): 4,
                 (8, False): 4, (3, False): 4, (7, False): 4, (2, False): 5, (6, False): 5,
                 (10, False): 5, (5, False): 6, (9, False): 6}
        for (line, was_erased), more in table.items():
            assert len(list_of('save', length, line, was_erased)) == cells + more
            assert len(list_of('format', length, line, was_erased)) == \
                (0 if (line, was_erased) == (0, True) else 3)
    assert cells == 2046 and max(len(list_of('save', 4096, n, False)) for n in [0, *LINES]) == 2052


def check():
    check_walks()
    check_numbers()
    check_counts()


def main(arguments):
    if arguments == ['check']:
        check()
        print('ok: the examples and counts of document 01')
    elif arguments and arguments[0] in ('show', 'replay'):
        sys.stdout.buffer.write(output(arguments))
    else:
        print(__doc__)


if __name__ == '__main__':
    main(sys.argv[1:])
