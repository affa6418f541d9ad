#!/usr/bin/env python3
"""almanac_arguments.py: runs target/bin/almanac with its request as arguments and compares what it writes with what almanac_expected.py computes: every
request, lines of crates/almanac/stdin, arguments too long, an output that cannot be written. Then, through a pipe and on a terminal, that each answer comes
before the next request is given. Then README's morning at the terminal, word for word. `programs/build almanac sheet` first."""
import os
import pty
import re
import select
import subprocess
import sys
import tempfile
import termios

sys.dont_write_bytecode = True
import almanac_expected

root = os.path.join(os.path.dirname(os.path.abspath(__file__)), '..')
binaries = os.path.abspath(os.path.join(root, 'target', 'bin'))
program = os.path.join(binaries, 'almanac')
PATH = dict(os.environ, PATH=binaries + ':' + os.environ['PATH'])
PATIENCE = 20
MOST_BYTES = 16384
UNREAD = b'almanac: cannot read an argument; the output is incomplete\n'
UNWRITTEN = b'almanac: cannot write standard output; the output is incomplete\n'
runs = 0


def run(command, expected, error=b'', **more):
    global runs
    runs += 1
    more.setdefault('stdin', subprocess.DEVNULL)
    more.setdefault('stdout', subprocess.PIPE)
    done = subprocess.run(command, stderr=subprocess.PIPE, timeout=PATIENCE, **more)
    told = f'{str(command)[:200]}: '
    assert done.returncode == 0, told + f'status {done.returncode}'
    assert done.stderr == error, told + f'standard error has {done.stderr[:200]}'
    assert done.stdout == expected, told + f'writes {(done.stdout or b"")[:2000]} where {(expected or b"")[:2000]} is expected'


def encoded(arguments):
    return [x if isinstance(x, bytes) else x.encode() for x in arguments]


def ask(*arguments, **more):
    arguments = encoded(arguments)
    run([program, *arguments], almanac_expected.by_arguments(*arguments), **more)


def shell(command, *arguments, **more):
    """The command writes what is written for the arguments."""
    run(['sh', '-c', command], almanac_expected.by_arguments(*encoded(arguments)), env=PATH, **more)


def requests():
    for line in [
        'day 2461360', 'day 2461360 hebrew', 'day 2461360 7', 'day 5373485', 'day 2461360 99', 'date gregorian 2026 11 15', 'date gregorian 2026 11 15 all',
        'date gregorian 2026 11 15 SUNDAY All', 'date gregorian 2026 11 31', 'date julian -4712 1 1 1', 'date 11 2026 11 15 6', 'months hebrew 5787',
        'months bahai 0', 'easter 2027', 'easter -1', 'frame gregorian 2026 11 15', 'frame republican 14 4 11', 'fit', 'fit 31 30 31 30 31 31', 'fit 28 30',
        'unfold 153 5 2 12', 'unfold 153 5 2 12 11', 'calendars', 'answers', 'help', '--help', '-h', 'HELP', '-H', '--Help', 'calendars x', 'help x',
        '--help help', '-h -h', 'day', 'day x', 'day --help', 'day 2461360 mayan', 'date', 'date gregorian', 'easter --help', 'unfold 153', 'fit 31 -30',
    ]:
        ask(line)
        ask(*line.split())
        ask(*line.replace(' ', '  ').split(' '))
        ask('\n'.join(line.split()) + '\n')


def no_words():
    """What begins with no request's word is answered by the help text too; what has no token at all is not."""
    for word in [
        'x', 'dates', '2461360', '--version', '-', '--', '-x', 'all', '\u00e9', b'\xff\xfe', 'x' * 64, 'x' * 65, 'x' * MOST_BYTES, '\x01', 'not a request',
        'day\x0b2461360', '"day"',
    ]:
        assert almanac_expected.by_arguments(*encoded([word])).endswith(b'answers lists them.\n')
        ask(word)
        ask(word, 'day', '2461360')
        ask('', word, 'help')
    for arguments in [''], ['', ''], [' '], ['\n'], ['\n\n', '\t', '\r'], [' ' * MOST_BYTES]:
        assert almanac_expected.by_arguments(*encoded(arguments)).count(b'\n') == 1
        ask(*arguments)


def cut_and_joined():
    ask('date gregorian 2026 11 15')
    ask('date gregorian', '2026', '11 15')
    ask('date', 'gregorian 2026 11 15 sunday', 'all')
    ask('', 'date', '', 'gregorian', ' ', '2026', '\t', '11', '\r', '15', '')
    ask('date\ngregorian\n2026\n11\n15')
    ask('day 2461360 hebrew\nday 2461361 hebrew')
    ask('day 2461360\n')
    ask('day', '2461', '360')
    ask('day', '24613\n60')
    ask('da', 'y', '2461360')
    for count in 1, 511, 512, 513, 600, 2000:
        lengths = ['30', '29'] * (count // 2) + ['30'] * (count % 2)
        ask('fit', *lengths)
        ask('fit ' + ' '.join(lengths))
        ask('fit', *lengths, 'x')
    ask('unfold', '204799', '512', '511', '512')


def long_arguments():
    for size in MOST_BYTES - 1, MOST_BYTES:
        ask('day' + ' ' * (size - 10) + '2461360')
        ask('day', '2461360'.zfill(size), 'hebrew')
        ask('day', '9' * size)
        ask('day', '2461360', ' ' * size, 'hebrew', ' ' * size)
        ask('calendars', 'x' * size, 'y' * size)
        ask('fit', '\n' * size, '31', '30', '\t' * size)
    for size in MOST_BYTES + 1, MOST_BYTES + 2, 2 * MOST_BYTES, 131071:
        for arguments in [
            'x' * size], [' ' * size], ['day', '2461360'.zfill(size)], ['day', '2461360', 'hebrew', ' ' * size], ['x', 'y' * size], ['help',
            'x' * size], ['fit', '31', '0' * size, '31',
        ]:
            run([program, *arguments], b'', UNREAD)


def lines_of_the_file():
    """Lines of the requests for standard input, each as one argument and as one argument a token."""
    with open(os.path.join(root, 'crates', 'almanac', 'stdin'), 'rb') as given, open(os.path.join(root, 'crates', 'almanac', 'stdout'), 'rb') as stored:
        data, output = given.read(), stored.read()
    lines = almanac_expected.lines_of(data)
    answers = almanac_expected.cut(data, output)
    assert b''.join(answers) == output
    for line, answer in list(zip(lines, answers, strict=True))[::9]:
        tokens = almanac_expected.tokens_of(line)
        if b'\0' in line or len(line) > MOST_BYTES:
            continue
        if tokens and not almanac_expected.is_request(tokens):
            answer += almanac_expected.text(almanac_expected.HELP)
        run([program, line], answer)
        if tokens:
            run([program, *tokens], answer)


def standard_input_is_left():
    """With arguments nothing is read: a file stays where it is, a pipe keeps its bytes, and none at all is no failure."""
    with tempfile.TemporaryFile() as file:
        file.write(b'day 1\nhelp\n')
        file.seek(0)
        ask('day', '2461360', stdin=file)
        assert os.lseek(file.fileno(), 0, os.SEEK_CUR) == 0, 'standard input was read'
    read, write = os.pipe()
    os.write(write, b'day 1\n')
    os.close(write)
    ask('easter', '2027', stdin=read)
    ask('x', stdin=read)
    assert os.read(read, 100) == b'day 1\n'
    os.close(read)
    shell('almanac day 2461360 hebrew <&-', 'day 2461360 hebrew')
    shell('echo day 1 | almanac day 2461360 hebrew', 'day 2461360 hebrew')
    shell('almanac nothing <&-', 'nothing')


def from_the_shell():
    shell('almanac date gregorian 2026 11 15', 'date gregorian 2026 11 15')
    shell('almanac "date gregorian" 2026 11 \'15 all\'', 'date gregorian 2026 11 15 all')
    shell('almanac --help', 'help')
    shell('almanac -h', 'help')
    shell('almanac help | cat', 'help')
    shell('almanac ""', '')
    shell('almanac "day\n2461360"', 'day 2461360')
    shell('cd / && almanac fit $(seq 1 600)', 'fit ' + ' '.join(map(str, range(1, 601))))
    shell('echo day 2461360 hebrew | almanac', 'day 2461360 hebrew')
    shell('printf "day 2461360 hebrew" | almanac', 'day 2461360 hebrew')
    run([program], b'')
    run(['sh', '-c', 'printf "x\\n" | almanac'], b'not a request: "x"; help lists the requests\n', env=PATH)


def unwritten():
    with open('/dev/full', 'wb') as full:
        run([program, 'help'], None, UNWRITTEN, stdout=full)
        run([program, 'day', '2461360'], None, UNWRITTEN, stdout=full)
        run([program, 'x'], None, UNWRITTEN, stdout=full)
    run(['sh', '-c', 'almanac easter 2027 >&-'], b'', UNWRITTEN, env=PATH)


CONVERSATION = [
    'help', 'day 2461360', 'day 2461360 hebrew', '', 'x', 'date gregorian 2026 11 15 all', 'date gregorian 2026 11 31', 'months hebrew 5787', 'easter 2027',
    'fit 31 30 31 30 31 31', 'fit 31 x', 'unfold 153 5 2 512', 'frame gregorian 2026 11 15', 'calendars', 'answers', '  day\t2461360\r', 'z' * 3000,
    'day 5373485',
]


def read_until(file, count):
    """That many bytes, or fewer where the output ends; no answer in time fails."""
    got = b''
    while len(got) < count:
        assert select.select([file], [], [], PATIENCE)[0], f'no answer in {PATIENCE} s; so far {got[:2000]}'
        try:
            part = os.read(file, count - len(got))
        except OSError:  # a terminal whose other end is closed
            part = b''
        if not part:
            break
        got += part
    return got


def talk(given, taken, end):
    """One request at a time; then two at once, one in two parts, and one without a newline before the end of the input."""
    def answered(*lines):
        expected = b''.join(almanac_expected.answers('\n'.join(lines).encode() + b'\n'))
        got = read_until(taken, len(expected))
        assert got == expected, f'{lines}: {got[:2000]} where {expected[:2000]} is expected'

    def silent():
        assert not select.select([taken], [], [], 0.05)[0], f'an answer before its request: {os.read(taken, 2000)}'

    for line in CONVERSATION:
        os.write(given, line.encode() + b'\n')
        answered(line)
    silent()
    os.write(given, b'day 2461360 julian\nday 2461361 julian\n')
    answered('day 2461360 julian', 'day 2461361 julian')
    os.write(given, b'easter 20')
    silent()
    os.write(given, b'27\n')
    answered('easter 2027')
    os.write(given, b'easter 2028')
    silent()
    end()
    answered('easter 2028')
    assert read_until(taken, 1) == b''


def by_pipe():
    child = subprocess.Popen([program], stdin=subprocess.PIPE, stdout=subprocess.PIPE, stderr=subprocess.PIPE, bufsize=0)
    talk(child.stdin.fileno(), child.stdout.fileno(), child.stdin.close)
    assert child.stderr.read() == b''
    assert child.wait(PATIENCE) == 0


def by_terminal():
    here, there = pty.openpty()
    # one that hands on every byte as it is, and echoes none
    modes = termios.tcgetattr(there)
    modes[0] &= ~termios.ICRNL
    modes[1] &= ~termios.OPOST
    modes[3] &= ~termios.ECHO
    termios.tcsetattr(there, termios.TCSANOW, modes)
    child = subprocess.Popen([program], stdin=there, stdout=there, stderr=subprocess.PIPE, bufsize=0)
    os.close(there)
    # the first control-D hands over the line as far as it is typed, the second ends the input
    talk(here, here, lambda: os.write(here, b'\x04\x04'))
    assert child.stderr.read() == b''
    assert child.wait(PATIENCE) == 0
    os.close(here)


def morning():
    """The commands of README's section, each with the lines that are said to follow. Empty lines before a command or after the block are not output."""
    with open(os.path.join(root, 'README.md'), encoding='utf-8') as file:
        found = re.findall(r'^## A morning at the terminal\n(.*?)(?=^## |\Z)', file.read(), re.M | re.S)
    assert len(found) == 1, f'README has {len(found)} sections "A morning at the terminal" where 1 is expected'
    commands, empty, within = [], 0, False
    for line in found[0].split('\n'):
        if line == '':
            empty += 1
            continue
        if line.startswith('    $ '):
            commands.append((line[6:], []))
            within = True
        elif line.startswith('    '):
            assert within, f'README: {line} follows no command'
            commands[-1][1].extend([''] * empty + [line[4:]])
        else:
            within = False
        empty = 0
    assert len(commands) >= 5, f'README has {len(commands)} commands where 5 are expected'
    for command, lines in commands:
        run(['sh', '-c', command], ''.join(line + '\n' for line in lines).encode(), env=PATH)
    return len(commands)


for part in requests, no_words, cut_and_joined, long_arguments, standard_input_is_left, from_the_shell, unwritten, by_pipe, by_terminal, lines_of_the_file:
    part()
shown = morning()
print(f'the almanac by arguments, through a pipe and on a terminal: {runs} runs, {shown} of them as README shows them')
