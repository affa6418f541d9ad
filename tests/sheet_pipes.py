#!/usr/bin/env python3
"""sheet_pipes.py: runs target/bin/sheet on crates/sheet/stdin through pipes that give few bytes at a time and take few, and compares
what it writes with crates/sheet/stdout. Then: that an answer comes before the next line is given, and that the program ends on an
empty input. `programs/build sheet` first."""
import fcntl
import os
import random
import subprocess
import threading

root = os.path.join(os.path.dirname(os.path.abspath(__file__)), '..')
program = os.path.join(root, 'target', 'bin', 'sheet')
data = open(os.path.join(root, 'crates', 'sheet', 'stdin'), 'rb').read()
answers = open(os.path.join(root, 'crates', 'sheet', 'stdout'), 'rb').read()


def through(given, taken):
    """The output where each write to the program has given() bytes and each read from it at most taken()."""
    input_read, input_write = os.pipe()
    output_read, output_write = os.pipe()
    fcntl.fcntl(output_write, 1031, 4096)  # F_SETPIPE_SZ: writes of more than 4 KiB come to nothing whole
    child = subprocess.Popen([program], stdin=input_read, stdout=output_write)
    os.close(input_read)
    os.close(output_write)

    def feed():
        at = 0
        while at < len(data):
            at += os.write(input_write, data[at:at + given()])
        os.close(input_write)

    feeder = threading.Thread(target=feed)
    feeder.start()
    out = b''
    while part := os.read(output_read, taken()):
        out += part
    feeder.join()
    child.wait()
    os.close(output_read)
    return out


random.seed(1)
for given in (lambda: 1 + random.randrange(40), lambda: 16, lambda: 17, lambda: random.choice([1, 16, 17, 18, 14335, 14336, 14337]), lambda: 65536):
    for taken in (lambda: random.choice([1, 2, 3, 100, 5000]), lambda: 65536):
        assert through(given, taken) == answers

child = subprocess.Popen([program], stdin=subprocess.PIPE, stdout=subprocess.PIPE, bufsize=0)
child.stdin.write(b'0b1a380101256859\n0b1a')
assert child.stdout.read(3) == b'00\n'
child.stdin.write(b'38010125685a\nxyz')
assert child.stdout.read(3) == b'09\n'
child.stdin.close()
assert child.stdout.read() == b'08\n'
child.wait()

for given, expected in ((b'', b''), (b'\n', b'08\n'), (b'0b1a380101256859', b'00\n')):
    assert subprocess.run([program], input=given, stdout=subprocess.PIPE).stdout == expected
print('ok')
