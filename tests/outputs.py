"""What every output of show and replay has to be, for tests/run-cases and tests/run-damaged."""
import json
import re

KEYS = {
    True: ['ok', 'version', 'page', 'left', 'right', 'line', 'live', 'other', 'steps', 'deciding',
           'notes'],
    False: ['ok', 'version', 'failed'],
}
KEYS_OF_PAGE = ['file', 'from', 'word', 'erased', 'image']


def printable(lines):
    """A line, at most 120 bytes of it, or that there is none."""
    return ascii(lines[0][:120].decode('latin-1')) if lines else 'missing'


def first_difference(wanted, got):
    """The first line that differs, of each."""
    wanted, got = wanted.split(b'\n'), got.split(b'\n')
    at = 0
    while at < min(len(wanted), len(got)) and wanted[at] == got[at]:
        at += 1
    return f'line {at + 1} is {printable(got[at:at + 1])}, not {printable(wanted[at:at + 1])}'


def fault_of_json(output):
    """One object on one line, with the keys of docs/FORMATS.md in its order."""
    try:
        held = json.loads(output)
    except ValueError as fault:
        return f'it is no JSON: {fault}'
    if output.count(b'\n') != 1:
        return 'it is not one line'
    if not isinstance(held, dict) or list(held) != KEYS.get(held.get('ok')):
        return 'the keys are not those of docs/FORMATS.md'
    if held['ok'] and [list(held['left']), list(held['right'])] != [KEYS_OF_PAGE] * 2:
        return 'the keys of a page are not those of docs/FORMATS.md'
    return None


def fault_of_text(output):
    """The last line says whether all went well; a run that fails prints it alone."""
    lines = output.split(b'\n')[:-1]
    if not lines[-1].startswith((b'ok: ', b'failed: ')):
        return 'the last line begins with neither ok nor failed'
    if lines[-1].startswith(b'failed: ') and len(lines) > 1:
        return f'it failed after {len(lines) - 1} lines'
    return None


def fault_of_output(arguments, output, errors, wanted):
    """What is wrong with a run, or None; arguments: the program first."""
    if output != wanted:
        return first_difference(wanted, output)
    if errors:
        return f'standard error holds {printable([errors])}'
    if not re.fullmatch(b'[\n -~]*\n', output):
        return 'a byte is neither printable ASCII nor a line feed, or no line feed is the last'
    return fault_of_json(output) if arguments[:2] == ['show', '--json'] else fault_of_text(output)
