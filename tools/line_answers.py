"""The ten lines and the steps between them, as the library answers: for tools/draw-lines.

The library is asked through the programs target/bin/show and target/bin/replay; docs/FORMATS.md has
what they print. No table of lines and no list of steps stands here:

- The words: it begins with two erased pages and takes every word that a step of a save or a format
  leaves, then every pair of these words, each with blank and with written images.
- The line, the live page and erased-or-not of a pair: `show --json`.
- The steps, which of them is the deciding store, that a read changes there and nowhere else, and
  the line after each step: `replay --all`, of a save and a format from each such pair.
- What a cut leaves: `replay --all`, with a cut after each number of steps and a save begun after it.

Where two answers contradict each other, or one can't be read, a Fault says so in one line.
"""
import itertools
import json
import pathlib
import re
import subprocess
from typing import NamedTuple

ROOT = pathlib.Path(__file__).resolve().parent.parent

# the smallest P; the data is in none of the images, and its cell isn't FFFF, so that its step
# leaves a page not erased
P = 8
SAVE, FORMAT = 'save 4 0102', 'format'
BLANK_WORD, BLANK_IMAGE, WRITTEN_IMAGE = 'FFFFFFFF', b'\xFF' * (P - 4), b'\x5A' * (P - 4)


class Fault(Exception):
    """Why there is no picture, in one line."""


# ---- what the programs say

class Place(NamedTuple):
    """Two pages between two steps: their words, line, and what is said of the live page."""
    words: tuple
    line: int
    live: str


class Step(NamedTuple):
    """A step that was made, the pages after it, and whether a read then shows something new."""
    text: str
    decides: bool
    after: Place
    is_new: bool


class Walk(NamedTuple):
    """A walk that was begun: how many steps it has and which decides (0: none), and those made."""
    total: int
    commit: int
    steps: list


WORDS = re.compile(r'  LEFT ([0-9A-F]{8}), RIGHT ([0-9A-F]{8}): line (\d+), (.+? live); a read '
                   r'(?:(shows)|shows the same|is answered 5)')
BEGUN = re.compile(r'  begun: (\d+) steps, (?:the deciding store is step (\d+)|none is needed)')
STEP = re.compile(r'  step (\d+) of (\d+): (.+?)(, the deciding store)?')
IMAGE_CELL = re.compile(r'program the image cell at \d+ of (LEFT|RIGHT) to [0-9A-F]{4}')
# what replay prints beside that: files, P, calls, images, what a read shows, the end of a walk, cuts
PASSED = re.compile(r'LEFT  .*|RIGHT .*|P = \d+|at first|script line \d+: .*| +\d+ ( [0-9A-F ]{2} |'
                    r'[ \[][0-9A-F]{2}[ \]]).*| +\d+ to \d+  (all FF|as before)|  ended: no step '
                    r'is left|  a read (shows|is answered 5, as) .*|  the power is cut.*|'
                    r'(cuts|ended): \d+, .*|ok: .*')
LIVE = {'LEFT': 'LEFT is live', 'RIGHT': 'RIGHT is live', None: 'no page is live'}


def run(folder, program, *arguments):
    """The lines that a program prints, the last of which has to say that all went well."""
    path = ROOT / 'target' / 'bin' / program
    if not path.is_file():
        raise Fault(f'target/bin/{program} is missing: `tools/build {program}` makes it')
    done = subprocess.run([str(path), *arguments], cwd=folder, stdin=subprocess.DEVNULL, timeout=20,
                          capture_output=True, encoding='latin-1')
    lines = done.stdout.splitlines() or ['nothing']
    if not lines[-1].startswith(('ok: ', '{"ok": true')):
        raise Fault(f'{program} says: {lines[-1]}')
    return lines


class Shown(NamedTuple):
    """What is told of two pages, and of a save from them: its steps, and which of them decides."""
    line: int
    live: str
    erased: bool
    cells: int
    steps: int
    commit: int


def shown(text):
    """What `show --json` tells. Erased-or-not is of both pages at line 0, else of the other page."""
    try:
        told = json.loads(text)
        pages = {'LEFT': told['left'], 'RIGHT': told['right']}
        live, steps, commit = told['live'], told['steps'], told['deciding']
        others = [page['erased'] for side, page in pages.items() if side != live]
        if live and others != [told['other'] == 'erased']:
            raise Fault(f'show tells two things of the page that is not live: {text}')
        cells = len(pages['LEFT']['image']) // 4
        return Shown(told['line'], LIVE[live], all(others), cells, steps, commit)
    except (ValueError, KeyError, TypeError):
        raise Fault(f'show: an answer that is not understood: {text}') from None


class Library:
    """The library, asked about two pages through its programs. Dumps stand in a folder."""

    def __init__(self, folder):
        self.folder = pathlib.Path(folder)

    def keep(self, pages):
        for name, page in zip(('left.bin', 'right.bin'), pages):
            (self.folder / name).write_bytes(page)

    def show(self, pages):
        """What is told of these pages."""
        self.keep(pages)
        return shown(run(self.folder, 'show', '--json', 'left.bin', 'right.bin')[-1])

    def replay(self, pages, count, *calls):
        """The walks, so many, that these calls begin, with the steps made of each, and the places
        at first and after a cut."""
        self.keep(pages)
        (self.folder / 'script.txt').write_text('\n'.join(calls) + '\n')
        walks, places = walks_in(run(self.folder, 'replay', '--all', 'left.bin', 'right.bin',
                                     'script.txt'))
        if (len(walks), len(places)) != (count, 1 + calls.count('cut')):
            raise Fault(f'replay: {len(walks)} walks and {len(places)} places for {calls}')
        return walks, places


def walks_in(lines):
    """The walks and the places of a timeline; the first place is that of the pages at first."""
    walks, places, made = [], [], None
    for line in lines:
        if match := WORDS.fullmatch(line):
            place = Place((match[1], match[2]), int(match[3]), match[4])
            if made is None:
                places.append(place)
            else:
                decides, is_new = made[4] is not None, match[5] is not None
                walks[-1].steps.append(Step(made[3], decides, place, is_new))
            made = None
        elif match := STEP.fullmatch(line):
            made = match
            wanted = (len(walks[-1].steps) + 1, walks[-1].total) if walks else None
            if (int(made[1]), int(made[2])) != wanted:
                raise Fault(f'replay: a step is told out of its order:{line}')
        elif match := BEGUN.fullmatch(line):
            walks.append(Walk(int(match[1]), int(match[2] or 0), []))
        elif not PASSED.fullmatch(line):
            raise Fault(f'replay: a line that is not understood: {line}')
    return walks, places


# ---- from answers to nodes and edges

class Begun(NamedTuple):
    """Where a walk begins: the line, and erased-or-not as `show` tells it."""
    line: int
    erased: bool


class Edge(NamedTuple):
    """A step, or all image cells, from node to node. A node is a line, or at line 0 one of two."""
    before: object
    after: object
    text: str
    decides: bool


class Lines(NamedTuple):
    """All that is drawn."""
    places: dict     # of each node but OTHER: its Place
    edges: dict      # of each Edge of a save: what it is there (parts_of)
    begun: dict      # and the lines at which the saves begin that make it
    optional: set    # the edges that a save from erased pages of the same line leaves out
    cut_to: dict     # of an edge of image cells: the node that a cut among them leaves
    counts: dict     # of each node: the steps of a save beside its image cells
    format: list     # the steps of a format


ERASED_PAGES, OTHER = '0, both pages erased', '0, any other pair'


def page_of(word, image):
    return bytes.fromhex(word)[::-1] + image


def shape(walk):
    """A walk without what depends on the image: each step's text, whether it decides, the line."""
    return [(IMAGE_CELL.sub(r'image cells of \1', step.text), step.decides, step.after.line)
            for step in walk.steps]


def whole(walk, what):
    """The walk, if it was made to its end and decides where its beginning says."""
    if len(walk.steps) != walk.total:
        raise Fault(f'replay: {what} has {walk.total} steps, {len(walk.steps)} were made')
    commits = [place for place, step in enumerate(walk.steps, 1) if step.decides]
    if commits != [walk.commit][:walk.total]:
        raise Fault(f'replay: {what} decides at step {walk.commit}, but its steps say {commits}')
    return walk


def ask_all(library):
    """A save and a format from every pair of words that their steps make, with each kind of image.

    Gives, for each way to begin, the first pages found and both walks; all others must be alike."""
    words, asked, found = [BLANK_WORD], set(), {}
    while todo := [pair for pair in itertools.product(words, words) if pair not in asked]:
        for pair in todo:
            asked.add(pair)
            for images in itertools.product((BLANK_IMAGE, WRITTEN_IMAGE), repeat=2):
                pages = tuple(map(page_of, pair, images))
                for word in ask_pages(library, pages, found):
                    if word not in words:
                        words.append(word)
    return found


def ask_pages(library, pages, found):
    """Asks for both walks from two pages and returns the words that their steps leave."""
    line, live, erased, cells, steps, commit = library.show(pages)
    (save,), (place,) = library.replay(pages, 1, SAVE, 'step all')
    (form,), _ = library.replay(pages, 1, FORMAT, 'step all')
    if (line, live) != place[1:]:
        raise Fault(f'show and replay differ: line {line}, {live}; line {place.line}, {place.live}')
    if (steps, commit) != save[:2]:
        raise Fault(f'show and replay differ in the steps of a save at line {line}')
    begun = Begun(line, erased)
    whole(save, f'a save at line {line}')
    whole(form, f'a format at line {line}')
    if sum(text.startswith('image cells') for text, _, _ in shape(save)) != cells:
        raise Fault(f'a save at line {line} does not program {cells} image cells')
    if any(step.is_new != step.decides for step in save.steps):
        raise Fault(f'a save at line {line}: a read changes not just at the deciding store')
    first = found.setdefault(begun, (pages, place, save, form))
    if shape(save) != shape(first[2]) or shape(form) != shape(first[3]):
        raise Fault(f'two walks from line {line} differ, at words {place.words}')
    return [word for step in save.steps + form.steps for word in step.after.words]


def node_after(library, found, pages, begin, steps):
    """The node that a cut after so many steps leaves; a save begun there must be one known there.

    At line 0 a format tells the two nodes apart: it has no step only if both pages are erased."""
    (_, form, save), places = library.replay(pages, 3, begin, f'step {steps}', 'cut', FORMAT, SAVE,
                                             'step all')
    line, save = places[-1].line, whole(save, 'a save after a cut')
    if shape(save) not in [shape(one[2]) for begun, one in found.items() if begun.line == line]:
        raise Fault(f'after a cut at line {line} a save goes on otherwise than from that line')
    if line != 0:
        return line
    return ERASED_PAGES if form.total == 0 else OTHER


def node_of(begun):
    if begun.line != 0:
        return begun.line
    return ERASED_PAGES if begun.erased else OTHER


def parts_of(place, walk):
    """What each step of a save is. Before all erases and image cells it is `tidying` where a page
    is live and `spoiling` where none is; then `making`, up to the one that is `deciding`; then
    `mark`."""
    first = 'spoiling' if place.live.startswith('no') else 'tidying'
    part, parts = first, []
    for text, decides, _ in shape(walk):
        if part == first and not text.startswith('program'):
            part = 'making'
        parts.append('deciding' if decides else part)
        part = 'mark' if decides else part
    return parts


def save_edges(library, found, begun, lines):
    """Adds the edges of the save from one beginning. Image cells are one edge, drawn where they
    begin, though at line 0 the first of them takes the pages from erased to not erased."""
    pages, place, save, _ = found[begun]
    node, parts = node_of(begun), parts_of(place, save)
    add_place(lines, node, place)
    for count, (text, decides, line) in enumerate(shape(save), 1):
        after = node_after(library, found, pages, SAVE, count)
        edge = Edge(node, after, text, decides)
        if text.startswith('image cells'):
            edge = Edge(node, node, text, decides)
            if line != lines.places[node].line or lines.cut_to.setdefault(edge, after) != after:
                raise Fault(f'the image cells of a save from line {begun.line} change the line')
        add_edge(lines, edge, parts[count - 1], begun.line)
        node = edge.after
        add_place(lines, node, save.steps[count - 1].after)


def add_place(lines, node, place):
    """Adds what is told of a node; any node but OTHER has one pair of words."""
    if lines.places.setdefault(node, place) != place and node != OTHER:
        raise Fault(f'line {node} has two pairs of words')


def add_edge(lines, edge, part, line):
    """Adds an edge, unless another says that the same step at the same node does something else."""
    for other in lines.edges:
        if other[0::2] == edge[0::2] and other != edge:
            raise Fault(f'two runs contradict each other: {edge.text}, at line {edge.before}')
    lines.edges.setdefault(edge, set()).add(part)
    lines.begun.setdefault(edge, set()).add(line)


def find_optional(found, lines):
    """The steps that a save leaves out where what it would erase is erased."""
    for begun, (_, _, save, _) in found.items():
        twin = found.get(Begun(begun.line, True))
        if begun.line != 0 and not begun.erased and twin:
            kept = shape(twin[2])
            more = len(save.steps) - len(kept)
            if shape(save)[more:] != kept:
                raise Fault(f'a save from line {begun.line} goes on otherwise where it is erased')
            for text, decides, line in shape(save)[:more]:
                lines.optional.add(Edge(begun.line, line, text, decides))


def format_steps(library, found):
    """The steps of a format and the node after each: the same from all but two erased pages."""
    lists = []
    for begun, (pages, _, _, form) in found.items():
        if (form.total == 0) != (node_of(begun) == ERASED_PAGES):
            raise Fault(f'a format from line {begun.line} has {form.total} steps')
        if form.total:
            lists.append([(text, decides, node_after(library, found, pages, FORMAT, count))
                          for count, (text, decides, _) in enumerate(shape(form), 1)])
    if any(steps != lists[0] for steps in lists):
        raise Fault('two formats differ')
    return lists[0]


def gather(library):
    """All that is drawn, from the library's answers."""
    found = ask_all(library)
    lines = Lines({}, {}, {}, set(), {}, {}, format_steps(library, found))
    for begun in sorted(found):
        save = found[begun][2]
        cells = sum(text.startswith('image cells') for text, _, _ in shape(save))
        lines.counts.setdefault(node_of(begun), set()).add(save.total - cells)
        save_edges(library, found, begun, lines)
    find_optional(found, lines)
    return lines
