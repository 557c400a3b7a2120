"""The cases and the folder that they are run in, for tests/make-cases and tests/run-cases.

A case is tests/cases/NAME.args: the program, then one argument a line, where `{TEXT*N}` stands for
TEXT repeated N times and `{=HH..}` for these bytes. Two files beside it may be missing: NAME.stdin,
whose bytes are standard input (with none it is empty), and NAME.cwd, the folder below the case
folder that the program is run in. The expected output is NAME.out; with none stored, as it would be
large, the model's is taken when the case is run.

The case folder holds copies of samples/, tests/scripts/ and the programs, and fixtures that are too
big or too odd to be stored. Programs and model run in it, as nobody where this is run by root: root
may read any file.
"""
import collections
import os
import pathlib
import pickle
import re
import shutil
import subprocess
import sys
import socket
import traceback

import model

ROOT = pathlib.Path(__file__).resolve().parent.parent
CASES = ROOT / 'tests' / 'cases'
PROGRAMS = ('show', 'replay')
NOBODY = 65534

# arguments: the program first; stdin: bytes; cwd: '' for the case folder itself
Case = collections.namedtuple('Case', 'arguments stdin cwd')


def expanded(argument):
    argument = re.sub(rb'\{([^{}]+)\*(\d+)\}', lambda m: m[1] * int(m[2]), argument)
    argument = re.sub(rb'\{=([0-9A-F]+)\}', lambda m: bytes.fromhex(m[1].decode()), argument)
    return os.fsdecode(argument)


def beside(path, suffix, default):
    other = path.with_suffix(suffix)
    return other.read_bytes() if other.exists() else default


def cases(names=()):
    """The cases, by their names."""
    found = {}
    for path in sorted(CASES.glob('*.args')):
        if not names or path.stem in names:
            lines = path.read_bytes().removesuffix(b'\n').split(b'\n')
            found[path.stem] = Case([expanded(line) for line in lines],
                                    beside(path, '.stdin', b''),
                                    beside(path, '.cwd', b'').decode().strip())
    return found


def stored(name):
    """The stored output of a case, or None."""
    path = CASES / f'{name}.out'
    return path.read_bytes() if path.exists() else None


# ---------------------------------------------------------------- fixtures

LONGEST = 262143                       # bytes of a script


def filled(size, end):
    """A script of this size: comments, then the line `end` without a line's end."""
    comment = b'# ' + b'-' * 61 + b'\n'
    room = size - len(end)
    return comment * (room // 64) + b' ' * (room % 64) + end


def odd_pages():
    return {
        'empty.bin': b'',
        'locked.bin': b'\xFF' * 8,
        'one.bin': b'\xFF',
        'seven.bin': b'\xFF' * 7,
        'bytes-4097.bin': b'\xFF' * 4097,
        'bytes-5000.bin': b'\xFF' * 5000,
        # LEFT beside samples/erased-right.bin: line 0 by the pair, not by the word
        'valid.bin': bytes.fromhex('00FFFFFF FFFFFFFF'),
        # beside samples/line3-left.bin: line 3, and an image that a save replaced
        'before.bin': bytes.fromhex('000000FF 0A0B0C0D'),
        # beside samples/line3-left.bin: a word that no step makes, image FF, line 0
        'no-word.bin': bytes.fromhex('12345678 FFFFFFFF'),
    }


def one_file_dumps():
    """Files that hold both pages."""
    live, dead = bytes.fromhex('0000FFFF 41424344'), bytes.fromhex('000000FF 31323334')
    return {
        # P = 16, RIGHT from byte 8 on: the word of RIGHT is blank, and it shares 8 bytes with LEFT
        'overlapping.bin': live + b'\xFF' * 8 + b'abcdefgh',
        # P = 24 from 0 and from 76 on: 100 bytes
        'hundred.bin': (live + b'=' * 16).ljust(76, b'\x00') + dead + b'-' * 16,
        # P = 8, behind other bytes of a flash
        'far.bin': bytes(range(256)) * 512 + live + b'U' * 65528 + dead + b'U' * 4096,
        # P = 4096, one page behind the other
        'pages-4096.bin': live + b'\xFF' * 4088 + dead + b'\xFF' * 4088,
        'erased-16.bin': b'\xFF' * 16,
        'twice-8.bin': live * 2,
    }


def odd_scripts():
    return {
        'full.txt': filled(LONGEST, b'read 4 4'),
        'overlong.txt': filled(LONGEST + 1, b'read 4 4'),
        'overlong-bad.txt': b'bad\n' + filled(LONGEST + 1, b'read 4 4'),
        'many.txt': b'read 4 0\n' * 7281,
        'most.txt': b'step 0\n' * 149796,
        'data-4096.txt': b'save 4 ' + b'5A' * 4096 + b'\nread 4 4\n',
        'data-4097.txt': b'save 4 ' + b'5A' * 4097 + b'\n',
        'data-4092.txt': b'save 4 ' + b'5A' * 4092 + b'\nstep 2\n',
        'step-4096.txt': b'save 4 0102\nstep with ' + b'5A' * 4096 + b'\n',
        'step-4097.txt': b'save 4 0102\nstep with ' + b'5A' * 4097 + b'\n',
        'copy-4096.txt': b'copy 4 4096\n' * 50,
        'crlf.txt': b'# comment\r\n\r\nsave 4 0102\r\nstep 2 # two\r\ncut \r\nread 4 4\r\n',
        'cr-at-the-end.txt': b'read 4 4\r\ncut\r',
        'cr-inside.txt': b'read 4 4\ncut\r # not before the end\n',
        'cr-twice.txt': b'read 4 4\ncut\r\r\n',
        'cr-in-comments.txt': b'# two\r\r\ncut # a \t\r \r\r\n#\r\n# in\rside\r\n',
        'cr-alone.txt': b'\r\ncut\r\n\r',
        'tabs.txt': b'\tsave\t4 \t0102\t\n\t\nstep\tall\t# end\nread\t4\t4',
        'tabs-in-comments.txt': b'\t#\tflag\tand count\t\t\ncut\t \t#\twith a\ttab \t\n',
        'no-newline.txt': b'read 4 4\ncut',
        'comment-at-the-end.txt': b'cut\n# no line feed after this',
        'word-100.txt': b'abcdefghij' * 10 + b' 4\n',
        'digits-100.txt': b'read ' + b'1234567890' * 10 + b' 4\n',
        'hex-100.txt': b'save 4 ' + b'012345678Z' * 10 + b'\n',
        'word-too-many.txt': b'cut ' + b'abcdefghij' * 10 + b'\n',
        'word-40.txt': b'abcdefghij' * 4 + b'\n',
        'word-escapes.txt': b'\x1B\\' * 30 + b'\n',
        'bytes-in-word.txt': b'cut\nsa\x00ve\x7F\x80\xFF\x1B~ 4 0102\n',
        'bytes-in-number.txt': b'read \xC3\xA94 4\n',
        'bytes-in-hex.txt': b'save 4 01\x0B02\n',
        'bytes-too-many.txt': b'cut \x01\x02\n',
        'bytes-in-comment.txt': b'cut # \x00\xFF\x0B Gr\xC3\xB6\xC3\x9Fe\n',
        'bytes-in-heading.txt': b'# \x1B[2J\x07 "C:\\dir" \x7F\x80\x00 ~\n#\x0B\x0C\ncut\n',
        'mark.txt': b'\xEF\xBB\xBFsave 4 0102\nstep all\n',
        'mark-heading.txt': b'\xEF\xBB\xBF# Gr\xC3\xB6\xC3\x9Fe\r\ncut\r\n',
        'mark-twice.txt': b'\xEF\xBB\xBF\xEF\xBB\xBFcut\n',
        'mark-later.txt': b'cut\n\xEF\xBB\xBFcut\n',
        'mark-only.txt': b'\xEF\xBB\xBF',
        'mark-half.txt': b'\xEF\xBBcut\n',
        'mark-full.txt': b'\xEF\xBB\xBF' + filled(LONGEST - 3, b'cut'),
        'mark-overlong.txt': b'\xEF\xBB\xBF' + filled(LONGEST - 2, b'cut'),
    }


ODD_NAME = b'odd \x1B[2J\nok: "shown"\\\xC3\xA9\xFF\x7F.bin'
ODD_TEXT = ODD_NAME.replace(b'\xFF', b'')      # the same as text: UTF-8


def make_links(folder):
    """Names that are other than those of plain files."""
    (folder / 'loop').symlink_to('loop')
    (folder / 'left-link.bin').symlink_to('samples/line3-left.bin')
    os.link(folder / 'samples' / 'line0-left.bin', folder / 'line0-left-again.bin')
    with socket.socket(socket.AF_UNIX) as end:
        here = os.getcwd()
        os.chdir(folder)                # the name of a socket is short
        end.bind('socket')
        os.chdir(here)


def make_part_of_samples(folder, *names):
    """A folder in which a part of the sample is missing."""
    (folder / 'samples').mkdir(parents=True)
    for name in names:
        shutil.copy(ROOT / 'samples' / name, folder / 'samples' / name)


def make_folder(folder):
    folder.chmod(0o777)
    shutil.copytree(ROOT / 'samples', folder / 'samples')
    shutil.copytree(ROOT / 'tests' / 'scripts', folder / 'scripts')
    (folder / 'folder').mkdir()
    make_part_of_samples(folder / 'no-right', 'story-left.bin')
    make_part_of_samples(folder / 'no-script', 'story-left.bin', 'story-right.bin')
    make_part_of_samples(folder / 'no-file', 'story-left.bin')
    (folder / 'no-file' / 'samples' / 'story-right.bin').mkdir()
    (folder / 'no-folder').mkdir()
    (folder / 'no-folder' / 'samples').touch()
    for name, data in {**odd_pages(), **one_file_dumps(), **odd_scripts()}.items():
        (folder / name).write_bytes(data)
    for name in ODD_NAME, ODD_TEXT:
        shutil.copy(folder / 'samples' / 'line3-left.bin', os.fsencode(folder) + b'/' + name)
    shutil.copy(folder / 'samples' / 'line3-left.bin', folder / '--left')
    shutil.copy(folder / 'samples' / 'line3-left.bin', folder / '-left')
    shutil.copy(folder / 'samples' / 'line0-left.bin', folder / 'line0-left-copy.bin')
    for program in PROGRAMS:
        if (ROOT / 'target' / 'bin' / program).exists():
            shutil.copy(ROOT / 'target' / 'bin' / program, folder / program)
    for path in folder.rglob('*'):
        path.chmod(0o777 if path.is_dir() or path.name in PROGRAMS else 0o666)
    (folder / 'locked.bin').chmod(0)
    make_links(folder)


# ---------------------------------------------------------------- running as nobody

def as_nobody():
    """The options with which subprocess runs a program as nobody."""
    if os.getuid():
        return {}
    return {'user': NOBODY, 'group': NOBODY, 'extra_groups': []}


def become_nobody():
    if os.getuid() == 0:
        os.setgroups([])
        os.setgid(NOBODY)
        os.setuid(NOBODY)


def model_output(folder, case):
    os.chdir(folder / case.cwd)
    return model.output(case.arguments, case.stdin)


def model_outputs(folder, wanted):
    """What the model prints in each case, in the folder and as nobody."""
    out, into = os.pipe()
    child = os.fork()
    if child == 0:
        try:
            os.close(out)
            become_nobody()
            with os.fdopen(into, 'wb') as pipe:
                pickle.dump({name: model_output(folder, case) for name, case in wanted.items()},
                            pipe)
        except BaseException:
            traceback.print_exc()
        finally:
            os._exit(0)
    os.close(into)
    with os.fdopen(out, 'rb') as pipe:
        outputs = pickle.load(pipe)
    os.waitpid(child, 0)
    return outputs


def show_stdout():
    """What the model prints for the run of `rt ci` of the program show."""
    place = ROOT / 'crates' / 'show'
    arguments = (place / 'args').read_text().split()
    return subprocess.run([sys.executable, ROOT / 'tests' / 'model.py', 'show', *arguments],
                          cwd=place / 'data', check=True, capture_output=True).stdout
