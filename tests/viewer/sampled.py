#!/usr/bin/env python3
"""Holds what the viewer says of drafts drawn by lot against the listing program's word and against a second look at each draft.

    tests/viewer/sampled.py FOLDER WORDS...

FOLDER has drafts, N.draft, and beside each the listing that crates/listing gives, N.listing. WORDS are the command that runs the
viewer. The last line is 'N passed, M failed': one for each draft, and one more.
"""
import json, os, subprocess, sys

folder, command = sys.argv[1], sys.argv[2:]


def characters(draft):
    """The characters of a draft with their places; a byte that is none is a negative number."""
    at = 3 if draft.startswith(b'\xef\xbb\xbf') else 0
    while at < len(draft):
        for length in 6, 4, 3, 2, 1:
            part = draft[at:at + length]
            try:
                c = part.decode('utf-8', 'surrogatepass' if length == 6 else 'strict')
                c = c.encode('utf-16', 'surrogatepass').decode('utf-16')
            except UnicodeDecodeError:
                continue
            if len(part) == length and len(c) == 1 and (length < 6 or ord(c) > 0xFFFF):
                break
        else:
            length, c = 1, None
        yield at, draft[at] - 256 if c is None else ord(c)
        at += length


def position(draft, place):
    """Line, column, and the line's characters before the place."""
    line, before = 1, []
    for at, c in characters(draft):
        if at >= place:
            break
        before.append(c)
        if c == 10:
            line, before = line + 1, []
    return line, len(before) + 1, before


def width(before):
    """How many columns these take; None where it is not told by Latin letters, controls and tabs alone."""
    columns = 0
    for c in before:
        if c >= 0x300 or 0x80 <= c < 0xA0 or c == 0xAD:
            return None
        columns += 8 - columns % 8 if c == 9 else 4 if c < 32 or c == 127 else 1
    return columns


def said(words, path):
    return subprocess.run(command + words + [path], capture_output=True)


def places_hold(told, draft):
    wanted = [position(draft, e['place'])[:2] for e in told['entities']]
    return wanted == [(e['line'], e['column']) for e in told['entities']]


def refusal_holds(told, draft, shown, path):
    line, column, before = position(draft, told['refusal']['place'])
    head, _, caret = shown.split(b'\n')[:3]
    columns = width(before)
    held = head.startswith(f'{path}:{line}:{column}: refused {told["refusal"]["number"]}: {told["refusal"]["words"]}'.encode())
    if columns is None:
        return held
    carets.append(path)
    return held and caret == b' ' * columns + b'^'


def holds(path):
    with open(path, 'rb') as source:
        draft = source.read()
    with open(path[:-6] + '.listing', 'rb') as source:
        listing = source.read()
    listed, shown, object_ = said(['--list'], path), said([], path), said(['--json'], path)
    told = json.loads(object_.stdout)
    refused = told['answer']['number'] != 0
    same = listed.stdout == listing and {listed.returncode, shown.returncode, object_.returncode} == {int(refused)}
    same = same and not (listed.stderr or shown.stderr or object_.stderr) and places_hold(told, draft)
    return same and (refusal_holds(told, draft, shown.stdout, path) if refused else shown.stdout.splitlines()[-1].startswith(b'read: '))


carets, wrong = [], []
paths = [os.path.join(folder, name) for name in sorted(os.listdir(folder)) if name.endswith('.draft')]
for path in paths:
    if not holds(path):
        wrong.append(path)
        print(f'FAILED: {path}')
if len(paths) < 100 or len(carets) < 20:
    wrong.append('few')
    print(f'FAILED: only {len(paths)} drafts, and {len(carets)} carets that were looked at')
print(f'{len(paths) + 1 - len(wrong)} passed, {len(wrong)} failed')
sys.exit(len(wrong) > 0)
