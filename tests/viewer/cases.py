#!/usr/bin/env python3
"""Runs the viewer on drafts, tables and options, and holds what it says, and its exit status, against what is expected.

    tests/viewer/cases.py WORDS...

WORDS are the command that runs it. It is run in the repository's folder. The last line is 'N passed, M failed'.
"""
import fcntl, json, os, pty, random, struct, subprocess, sys, tempfile, termios

command = sys.argv[1:]
work = tempfile.mkdtemp()
counts = {True: 0, False: 0}
HOUSE = ['-t', 'examples/house.table']


def one(name, held, said=''):
    counts[bool(held)] += 1
    if not held:
        print(f'FAILED: {name}\n{said}')


def file(name, content):
    path = os.path.join(work.encode(), name if isinstance(name, bytes) else name.encode())
    with open(path, 'wb') as to:
        to.write(content)
    return os.fsdecode(path)


def run(words, given=b'', env=None, **more):
    surroundings = {k: v for k, v in os.environ.items() if k not in ('NO_COLOR', 'LC_ALL', 'LANG')}
    surroundings.update(env or {'LC_ALL': 'C.UTF-8'})
    return subprocess.run(command + words, input=given, capture_output=True, env=surroundings, **more)


def case(name, words, given=b'', status=0, out=None, has=b'', err=b'', env=None):
    """What is written is `out`, or has `has` in it; what is said of faults has `err` in it, and is empty where that is."""
    said = run(words, given, env)
    held = said.returncode == status and has in said.stdout and err in said.stderr and (err != b'') == (said.stderr != b'')
    held = held and (out is None or out == said.stdout)
    one(name, held, f'{words}: {said}')


def read(path):
    with open(path, 'rb') as source:
        return source.read()


# ---- the examples

def examples():
    for folder, status in ('sound', 0), ('refused', 1):
        for name in sorted(os.listdir(f'examples/{folder}')):
            if name.endswith('.draft'):
                path = f'examples/{folder}/{name}'
                case(path, HOUSE + [path], status=status, out=read(path[:-6] + '.shown'))
    for name in 'refused/23', 'sound/stole':
        picture = f'    $ vogieburn-view -t examples/house.table examples/{name}.draft\n'.encode()
        picture += b''.join(b'    ' + line + b'\n' for line in read(f'examples/{name}.shown').splitlines())
        one(f'the picture of {name} in README.md', picture in read('README.md'), picture)
    numbers = sorted(int(n[:-6]) for n in os.listdir('examples/refused') if n.endswith('.draft'))
    one('an example for each refusal that is to have one', numbers == [7, 14, 21, 22, 23, 24, 28], numbers)
    for number in numbers:
        one(f'examples/refused/{number} is refused so', f': refused {number}: '.encode() in read(f'examples/refused/{number}.shown'))


# ---- what is said

def answers():
    bind = file('bind.table', b'bind: [number] ->\n')
    given = b'%w; [3, 11, 19] bind |;'
    case('document 01, a sound draft', ['-t', bind], given, has=b'\nsound: 15 entities, 15 steps, 0 cells remain\n')
    case('without a table', [], given, has=b'\nread: 15 entities, 10 bytes of text, 23 bytes consumed\n')
    case('document 01, a refused draft', ['-t', bind], b'11 [3,,19] bind |;', 1,
         has=b'<stdin>:1:7: refused 28: group ends without exactly one cell\n11 [3,,19] bind |;\n      ^\n')
    case('one cell remains', ['-t', bind], b'1 |;', has=b'sound: 2 entities, 2 steps, 1 cell remains\n')
    case('standard input by name', ['-'], b'|;', out=b'end\nread: 1 entity, 0 bytes of text, 2 bytes consumed\n')
    case('groups in groups', [], b'((())) [()] |;',
         has=b'group\n  group\n    group: empty\narray of 1\n  element 1\n    group: empty\nend\n')
    case('strings', [], b'p"a\\"" {b{c}} "" q{x\ny} |;',
         has=b'quoted string with prefix p "a\\""\ncurly string {b{c}}\nquoted string ""\n'
             b'curly string with prefix q, 2 lines\n  | x\n  | y\nend\n')
    case('names', [], b'?a @b =c :d = |;', has=b'define variable a\ndefine constant b\nget c\nput d\nget \nend\n')
    case('as many entities as a draft can have', [], b'[' + b',' * 16383, 1, has=b':1:16385: refused 7: ')
    case('the same, read', ['--list'], b'(1) |;', out=b'0 6 0 0 0\n1 9 1 0 0\n2 7 0 0 0\n4 17 0 0 0\nread 6\n')


# The number, a draft that is refused so, the line, the column, and some of the words that document 01 has for it.
REFUSALS = [
    (1, b' ' * 16385, 1, 1, 'over 16,384 bytes'), (2, b'"\xC3"', 1, 2, 'malformed'), (3, b'#\xED\xA0\x80', 1, 2, 'unpaired surrogate'),
    (4, b'a\0', 1, 2, 'nul'), (5, b'\ra', 1, 1, 'CR without LF'), (6, b'\n \x7F', 2, 2, 'illegal character outside comment and string'),
    (7, b'', 1, 1, 'draft ends'), (8, b'a' * 256, 1, 256, 'over 255 bytes'), (9, b'"' + b'a' * 4097, 1, 4098, 'over 4,096 clean bytes'),
    (10, b'%%', 1, 2, '% inside'), (11, b'\n;', 2, 1, '; outside'), (12, b'%|;', 1, 2, '|; in a metacommand'),
    (13, b'(|;', 1, 2, '|; with a group or array open'), (14, b')', 1, 1, ') with'), (15, b',', 1, 1, ', with'), (16, b']', 1, 1, '] with'),
    (17, b'(' * 65, 1, 65, 'over 64 groups'), (21, b'none |;', 1, 1, 'operation unknown'), (22, b'n |;', 1, 1, 'too few cells in sight'),
    (23, b'"" n |;', 1, 4, 'wrong kind'), (24, b'1 a |;', 1, 3, 'array wanted, plain number on top'),
    (25, b'1 ?x 1 @x |;', 1, 8, 'name defined before'), (26, b'=x |;', 1, 1, 'name not defined'),
    (27, b'1 @x 1 :x |;', 1, 8, 'put to a constant'), (28, b'() |;', 1, 2, 'group ends without exactly one cell'),
    (29, b'1 ' * 1025 + b'|;', 1, 2049, 'over 1,024 cells'),
    (30, b''.join(b'1 ?%d ' % i for i in range(100, 229)) + b'|;', 1, 899, 'over 128 names'),
]


def refusals():
    table = file('few.table', b'n: number ->\na: [number] ->\n')
    for number, given, line, column, words in REFUSALS:
        said = run(['-t', table], given)
        first = said.stdout.split(b'\n')[0].decode()
        one(f'refusal {number}', said.returncode == 1 and first.startswith(f'<stdin>:{line}:{column}: refused {number}: ')
            and words in first, said)
    case('the unknown operation', ['-t', table], b'none |;', 1, has=b": operation unknown: 'none'\n")
    near = file('near.table', b'warp: ->\nbind: ->\nselvedge: ->\ncut: ->\n')
    for given, line, meant in (b'wrap', 1, b'warp'), (b'bin', 2, b'bind'), (b'bindd', 2, b'bind'), (b'slvedgf', 3, b'selvedge'), (b'ctu', 4, b'cut'):
        case(f'a name like {meant}', ['-t', near], given + b' |;', 1, has=f'{near}:{line}:1: note: did you mean '.encode() + b"'" + meant + b"'?\n")
    for given in b'weft', b'a', b'b' * 255:
        said = run(['-t', near], given + b' |;')
        one(f'no name like {given[:9]}', said.returncode == 1 and b'note' not in said.stdout, said)
    case('what is taken', ['-t', table], b'1 a |;', 1, has=f'{table}:2:1: note: a takes [number]\n'.encode())
    case('what ? takes', ['-t', table], b'?x |;', 1, has=b'<stdin>:1:1: note: ?x takes one cell, of any kind\n')
    case('what : takes', ['-t', table], b':x |;', 1, has=b'<stdin>:1:1: note: :x takes one cell, of the kind that the name has\n')
    case('a put of another kind', ['-t', table], b'1 ?x\n"" :x |;', 1, has=b'<stdin>:1:3: note: the name has its kind from here\n')
    case('a name defined before', ['-t', table], b'1 ?x 1 @x |;', 1,
         has=b": name defined before: 'x'\n1 ?x 1 @x |;\n       ^\n<stdin>:1:3: note: the name is defined here\n")
    case('a name not defined', ['-t', table], b'= |;', 1, has=b": name not defined: ''\n")
    case('a put to a constant', ['-t', table], b'1 @x 1 :x |;', 1, has=b": put to a constant: 'x'\n")
    case('the group that is open', [], b'(1\n(2) [3 |;', 1, has=b'<stdin>:2:6: note: the group or element begins here\n')
    case('the group that is open at the end', [], b'(1 (2) ', 1, has=b'<stdin>:1:1: note: the group or element begins here\n')
    case('the string that is not ended', [], b'(a # "\n\n [ "b |;', 1, has=b'<stdin>:3:4: note: the token or string that is not ended')
    case('the token that is not ended', [], b'\xef\xbb\xbf ab', 1, has=b'<stdin>:1:2: note: the token or string that is not ended')
    case('the string that is too long', [], b'a p{' + b'b' * 4097, 1, has=b'<stdin>:1:3: note: the token or string that is not ended')
    case('a comment that is not ended', [], b'a # b', 1, out=b'<stdin>:1:6: refused 7: draft ends before its |; is read\na # b\n     ^\n')
    case('the metacommand that is open', [], b'(%;\n%a |;', 1, has=b'<stdin>:2:1: note: the metacommand begins here\n')
    case('the metacommand that is open at the end', [], b'(%a # b\n', 1, has=b'<stdin>:1:2: note: the metacommand begins here\n')


# ---- places

CARETS = [
    ('tab', 'a\t\t) |;', 1, 4, 'a               ) |;', 16),
    ('wide characters', '"\u4e00\uff21" ) |;', 1, 6, '"\u4e00\uff21" ) |;', 7),
    ('combining characters', '"e\u0301" ) |;', 1, 6, '"e\u0301" ) |;', 4),
    ('a combining character itself', 'e\u0301 |;', 1, 2, 'e\u0301 |;', 0),
    ('CR LF', 'a\r\nb ) |;\r\n', 2, 3, 'b ) |;', 2),
    ('byte order mark', '\ufeffa ) |;', 1, 3, 'a ) |;', 2),
    ('two byte order marks', '\ufeff\ufeff', 1, 1, '\\u{FEFF}', 0),
    ('the draft\'s length', 'ab', 1, 3, 'ab', 2),
    ('the draft\'s length behind LF', 'ab\n', 2, 1, '', 0),
    ('the draft\'s length behind CR LF', 'ab\r\n', 2, 1, '', 0),
    ('ESC', '"\x1b[31m" ) |;', 1, 9, '"\\x1B[31m" ) |;', 11),
    ('DEL and C1', '#\x7f\x9b\n) |;', 2, 1, ') |;', 0),
    ('right to left', '"\u202e\u2066" ) |;', 1, 6, '"\\u{202E}\\u{2066}" ) |;', 19),
    ('nul', 'a\0b |;', 1, 2, 'a\\x00b |;', 1),
    ('CR alone', 'a\rb |;', 1, 2, 'a\\x0Db |;', 1),
]
BYTES = [
    ('malformed bytes', b'"\xff\xc3" |;', 1, 2, '"\\xFF\\xC3" |;', 1),
    ('a surrogate pair', b'"\xed\xa0\xbd\xed\xb8\x80" ) |;', 1, 5, '"\U0001f600" ) |;', 5),
    ('a surrogate alone', b'"\xed\xa0\xbd" |;', 1, 2, '"\\xED\\xA0\\xBD" |;', 1),
    ('a character of four bytes', '"\U0001f600" ) |;'.encode(), 1, 5, '"\U0001f600" ) |;', 5),
]
LOCALES = ['C.UTF-8', 'C', 'POSIX', 'xx_YY.UTF-8', 'de_DE.ISO-8859-1']


def carets():
    for name, given, line, column, shown, caret in CARETS + BYTES:
        given = given if isinstance(given, bytes) else given.encode()
        said = run([], given)
        lines = said.stdout.decode().split('\n')
        one(f'caret: {name}', said.returncode == 1 and lines[0].startswith(f'<stdin>:{line}:{column}: ')
            and lines[1:3] == [shown, ' ' * caret + '^'], said)
    given = '"\u4e00e\u0301" ) |;'.encode()
    for locale in LOCALES:
        said = run([], given, {'LC_ALL': locale})
        one(f'caret: locale {locale}', said.stdout.endswith(b'\n      ^\n'), said)


# ---- tables

GOOD = [
    ('names of any operation', b'}: -> 9\na:b: ->\na:: ->\nkinds: ->\n|: ->\nx->: ->\n', b'} a:b a: kinds | x-> |;', b'1 cell remains'),
    ('no blanks', b'f:[number][2]->number 2', b'|;', b'sound'),
    ('kinds by name and number', b'kinds: ox f\xc3\xa4den a-b\nf: -> ox f\xc3\xa4den 4\ng: a-b 3 2 -> \n', b'f g |;', b'0 cells'),
    ('CR LF', b'f: -> number\r\n# remark\r\n\r\ng: number ->\r\n', b'f g |;', b'0 cells'),
    ('a byte order mark', b'\xef\xbb\xbff: ->', b'f |;', b'sound'),
    ('an empty table', b'', b'|;', b'sound'),
    ('a table of remarks', b'# a\n \t # \xff\0b', b'|;', b'sound'),
    ('256 operations', b''.join(b'o%d: ->\n' % i for i in range(256)), b'o255 |;', b'sound'),
    ('a name of 255 bytes', b'n' * 255 + b': ->', b'n' * 255 + b' |;', b'sound'),
    ('eight items and kinds', b'f:' + b' 0' * 8 + b' ->' + b' 1' * 8, b'0 0 0 0 0 0 0 0 f |;', b'8 cells'),
    ('a long line', b'f: ->' + b' ' * 900000 + b'# ' + b'x' * 100000, b'f |;', b'sound'),
]
BAD = [
    (b'bind [number] ->', 1, 5, "':' right behind the name"),
    (b'add:number -> number', 1, 11, "':' right behind the name"),
    (b'\n\n  3d: ->', 3, 3, "an operation's name"),
    (b'"x": ->', 1, 1, "an operation's name"),
    (b'\xc3\xa9: ->', 1, 1, "an operation's name"),
    (b'\0: ->', 1, 1, "an operation's name"),
    (b': ->', 1, 1, "an operation's name"),
    (b'f', 1, 2, "':' right behind the name"),
    (b'f:', 1, 3, "'->' behind the items"),
    (b'f: number # ->', 1, 11, "'->' behind the items"),
    (b'f: nummer ->', 1, 4, "a kind, '[' or '->'"),
    (b'f: 16 ->', 1, 4, "a kind, '[' or '->'"),
    (b'f: [16] ->', 1, 5, "a kind behind '['"),
    (b'f: [] ->', 1, 5, "a kind behind '['"),
    (b'f: [2 ->', 1, 7, "']' behind the kind"),
    (b'f: -> [2]', 1, 7, 'a kind, or the end of the line'),
    (b'f: -> 2 ->', 1, 9, 'a kind, or the end of the line'),
    (b'f: 2,3 ->', 1, 5, "a kind, '[' or '->'"),
    (b'f: ->\r', 1, 6, 'a kind, or the end of the line'),
    (b'f:' + b' 0' * 9 + b' ->', 1, 20, "'->': an operation takes at most 8 items"),
    (b'f: ->' + b' 0' * 9, 1, 23, 'the end of the line: an operation gives at most 8 kinds'),
    (b'f: ->\n# \n f: ->', 3, 2, 'another name: this one stands on line 1 already'),
    (b'n' * 256 + b': ->', 1, 256, "':': a name has at most 255 bytes"),
    (b''.join(b'o%d: ->\n' % i for i in range(257)), 257, 1, 'no more lines: a table has at most 256 operations'),
    (b'kinds: a\nkinds: b', 2, 1, 'an operation: kinds are named on line 1 already'),
    (b'kinds: number', 1, 8, 'another name: a kind has this one already'),
    (b'kinds: a a', 1, 10, 'another name: a kind has this one already'),
    (b'kinds: 2a', 1, 8, "a kind's name"),
    (b'kinds: \x1b', 1, 8, "a kind's name"),
    (b'kinds:', 1, 7, 'names for the kinds'),
    (b'kinds: ' + b' '.join(b'k%d' % i for i in range(15)), 1, 54, 'the end of the line: there are 14 kinds to name'),
    (b'f: a ->\nkinds: a', 1, 4, "a kind, '[' or '->'"),
    (b'\xef\xbb\xbff', 1, 2, "':' right behind the name"),
    (b'f: \t\xe4\xb8\x80 ->', 1, 5, "a kind, '[' or '->'"),
]


def tables():
    for name, content, given, has in GOOD:
        case(f'table: {name}', ['-t', file('good.table', content)], given, has=has)
    for content, line, column, expected in BAD:
        path = file('bad.table', content)
        case(f'table: {content[:20]}', ['-t', path], b'|;', 2, out=b'', err=f'{path}:{line}:{column}: expected {expected}'.encode())
    path = file('bad.table', b'add: number\tnummer -> number\r\n')
    case('the line and a caret', ['--table', path], b'|;', 2, out=b'', err=b'\nadd: number     nummer -> number\n                ^\n')
    case('a table on standard input', ['-t', '-', file('a.draft', b'f |;')], b'f: ->', has=b'sound: 2 entities, ')
    case('a table over the limit', ['-t', file('long.table', b'#' * (2**20 + 1))], b'|;', 2, err=b'over 1,048,576 bytes')
    case('a table at the limit', ['-t', file('long.table', b'#' * 2**20)], b'|;', has=b'sound: 1 entity, 1 step, ')


# ---- options

def options():
    usage = b"\ntry 'vogieburn-view --help'\n"
    case('help', ['--help'], has=b'usage: vogieburn-view [OPTION]... [DRAFT]\n')
    case('help before all else', ['-h', '--none'], has=b'usage: ')
    version = [line.split('"')[1] for line in read('include/vogieburn.h').decode().split('\n') if line.startswith('#define VOGIEBURN_VERSION')]
    case('version', ['--version'], out=f'vogieburn-view {version[0]}\n'.encode())
    case('version by letter', ['-V'], out=f'vogieburn-view {version[0]}\n'.encode())
    case('an unknown option', ['--none'], status=2, out=b'', err=b'--none' + usage)
    case('an unknown letter', ['-x'], status=2, out=b'', err=b': -x' + usage)
    case('a letter that is a control character', ['-\x1b'], status=2, out=b'', err=b': -\\x1B' + usage)
    case('a word too many for an option', ['--list=1'], status=2, out=b'', err=b'--list=1' + usage)
    case('no table behind -t', ['-t'], status=2, out=b'', err=b'a table is wanted behind -t' + usage)
    case('two drafts', ['a', 'b'], status=2, out=b'', err=b'one draft at a time: b' + usage)
    case('a list and an object', ['--list', '--json'], status=2, out=b'', err=b'only one is possible' + usage)
    case('a list and remarks', ['--list', '--remarks'], status=2, out=b'', err=b'only one is possible' + usage)
    case('all on standard input', ['-t', '-'], status=2, out=b'', err=b'cannot both be standard input' + usage)
    case('no such draft', [work + '/none'], status=2, out=b'', err=b'none: No such file or directory\n')
    case('no such table', ['-t', work + '/none', '-'], status=2, out=b'', err=b'none: No such file or directory\n')
    case('a folder', [work], status=2, out=b'', err=b': Is a directory\n')
    case('options behind the draft', [file('a.draft', b'|;'), '--list'], out=b'0 17 0 0 0\nread 2\n')
    case('a draft that begins with a line', ['--', '-t'], status=2, out=b'', err=b'-t: No such file')
    odd = file(b'o\x1bd\xffd', b')')
    case('a name that no terminal may get', [odd], status=1, has=b'/o\\x1Bd\\xFFd:1:1: refused 14')
    with open('/dev/full', 'wb') as full:
        said = subprocess.run(command, input=b'|;', stdout=full, stderr=subprocess.PIPE)
    one('what cannot be written', said.returncode == 2 and b'standard output' in said.stderr, said)


def any_words():
    """Whatever words there are, the viewer ends by itself."""
    lots = random.Random(1)
    pool = ['-t', '--table', '--table=', '-', '--', '--list', '--json', '--remarks', '-h', '-V', '-thV', '--re', '--li=', '', '\x1b', '-\x7f',
            'examples/house.table', 'examples/refused/24.draft', 'examples', '/dev/null', '-texamples/house.table', '\udcff']
    for turn in range(60):
        words = [lots.choice(pool) for _ in range(lots.randrange(6))]
        said = run(words, b'[3, 11, 19] bind |;')
        clean = all(c >= 32 or c == 10 for c in said.stdout + said.stderr) and b'Sanitizer' not in said.stderr
        one(f'any words: {words}', said.returncode in (0, 1, 2) and clean, said)


def remarks():
    case('only whitespace follows', ['--remarks'], b'|; \r\n', has=b'consumed\nremarks: none, only whitespace follows the |;\n')
    case('remarks follow', ['--remarks'], b'|;\n\n  16 November\n',
         has=b'<stdin>:3:3: remarks: more than whitespace follows the |;\n  16 November\n  ^\n')
    case('of a refused draft nothing more is told', ['--remarks'], b')', 1, out=b'<stdin>:1:1: refused 14: ) with no group to close here\n)\n^\n')


def listings():
    for name in sorted(os.listdir('examples')):
        if name.endswith('.draft'):
            listing = read(f'examples/{name[:-6]}.listing')
            case(f'--list {name}', ['--list', f'examples/{name}'], status=0 if b'read' in listing else 1, out=listing)
    for length in 16385, 300000:
        case(f'--list of {length} bytes', ['--list'], b' ' * length, 1, out=b'refused 1 0\n')
    case('--list has room for 2,000', ['--list'], b'a ' * 2000 + b'|;', 1, has=b'refused 18 4000\n')
    case('--list under a table', HOUSE + ['--list', 'examples/refused/28.draft'], status=1, has=b'refused 28 64\n')


# ---- programs and terminals

def objects():
    def told(name, words, given, status=0):
        said = run(words + ['--json'], given)
        try:
            told = json.loads(said.stdout)
        except ValueError:
            told = None
        one(f'json: {name}', told is not None and said.returncode == status and said.stdout.isascii(), said)
        return told or {}

    sound = told('a sound draft', HOUSE + ['examples/sound/hem.draft'], b'')
    one('json: sound', sound.get('verdict') == 'sound' and sound['answer']['steps'] == len(sound['entities']) == 35
        and sound['tail'] == {'yes': True} and sound['operations'][0]['name'] == 'spin', sound)
    data = told('data', [], 'p"\x01\x7f\u0085\U0001f600\\\\" |; x'.encode())
    one('json: data', data.get('entities', [{}])[0].get('data') == '\x01\x7f\u0085\U0001f600\\\\'
        and data['tail'] == {'yes': False, 'place': 17, 'line': 1, 'column': 14}, data)
    bad = told('malformed bytes', [], b'a\n"\xff\0" |;', 1)
    one('json: malformed bytes', bad.get('refusal', {}).get('source') == '"\ufffd\0" |;'
        and bytes.fromhex(bad['refusal'].get('source_hex', '')) == b'"\xff\0" |;' and bad['refusal']['line'] == 2, bad)
    odd = told('a name that is not UTF-8', [file(b'\xff"\n.draft', b'|;')], b'')
    one('json: a name that is not UTF-8', bytes.fromhex(odd.get('draft_hex', '')).endswith(b'/\xff"\n.draft'), odd)
    wrong = told('a wrong kind', HOUSE + ['examples/refused/23.draft'], b'', 1)
    one('json: a wrong kind', wrong.get('refusal', {}).get('text') == 'repeat' and wrong['refusal']['table_line'] == 17
        and [t.get('name') for t in wrong['refusal']['takes']] == ['number', 'motif'], wrong)


def on_terminal(words, env, columns=80):
    master, slave = pty.openpty()
    fcntl.ioctl(slave, termios.TIOCSWINSZ, struct.pack('HHHH', 24, columns, 0, 0))
    surroundings = {k: v for k, v in os.environ.items() if k != 'NO_COLOR'}
    surroundings.update({'TERM': 'xterm', 'LC_ALL': 'C.UTF-8'}, **env)
    child = subprocess.Popen(command + words, stdin=subprocess.DEVNULL, stdout=slave, stderr=slave, env=surroundings)
    os.close(slave)
    said = b''
    while True:
        try:
            part = os.read(master, 4096)
        except OSError:
            break
        if not part:
            break
        said += part
    child.wait()
    os.close(master)
    return said.replace(b'\r\n', b'\n')


def terminals():
    words = HOUSE + ['examples/refused/28.draft']
    plain = read('examples/refused/28.shown')
    one('colour on a terminal', b'\x1b[1;31mrefused 28: \x1b[0m' in on_terminal(words, {}), on_terminal(words, {}))
    one('no colour with NO_COLOR', on_terminal(words, {'NO_COLOR': '1'}) == plain, on_terminal(words, {'NO_COLOR': '1'}))
    one('NO_COLOR that is empty', b'\x1b[' in on_terminal(words, {'NO_COLOR': ''}))
    one('no colour on a dumb terminal', on_terminal(words, {'TERM': 'dumb'}) == plain)
    path = file('wide.draft', b'a' * 100 + b' \xe4\xb8\x80 ' + b'b' * 100)
    lines = on_terminal([path], {'NO_COLOR': '1'}, 20).decode().split('\n')
    one('a long line on a terminal', lines[1:3] == ['a' * 9 + ' \u4e00 ' + 'b' * 7, ' ' * 10 + '^'], lines)


for part in examples, answers, refusals, carets, tables, options, any_words, remarks, listings, objects, terminals:
    part()
subprocess.run(['rm', '-r', work])
print(f'{counts[True]} passed, {counts[False]} failed')
sys.exit(counts[False] > 0)
