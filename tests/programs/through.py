#!/usr/bin/env python3
"""through.py HOW COMMAND...: runs a program whose bytes come and go in another way than files and plain pipes have them.

PIECE     standard input, and the file `patches` if there is one, in pieces of so many bytes: a read gets one piece and no more
short     standard output into a pipe that holds little and is read slowly, and writes that are cut short now and then
apart     standard output write by write: what each write brought is printed, and on standard error how many there were
refused   standard output that refuses long writes and takes short ones
"""
import array
import fcntl
import os
import signal
import socket
import subprocess
import sys
import termios
import threading
import time

how, command = sys.argv[1], sys.argv[2:]
program = None


def start(**ends):
    """Starts the program, and ends it with this one if it does not end by itself: what it printed so far is not what is due then."""
    global program
    program = subprocess.Popen(command, **ends)
    signal.signal(signal.SIGALRM, lambda *_: (program.kill(), os._exit(1)))
    signal.alarm(30)


def feed(descriptor, data, piece):
    """Writes the data as packets, of which a read gets one."""
    fcntl.fcntl(descriptor, fcntl.F_SETFL, os.O_WRONLY | os.O_DIRECT)
    try:
        for at in range(0, len(data), piece):
            os.write(descriptor, data[at:at + piece])
    except BrokenPipeError:
        # a program that has its room full reads no further
        pass
    os.close(descriptor)


def feed_set(data, piece):
    feed(os.open('patches', os.O_WRONLY), data, piece)


def in_pieces(piece):
    reading, writing = os.pipe()
    if os.path.isfile('patches'):
        with open('patches', 'rb') as file:
            data = file.read()
        os.remove('patches')
        os.mkfifo('patches')
        # a program that never opens the file is not waited for
        threading.Thread(target=feed_set, args=(data, piece), daemon=True).start()
    start(stdin=reading)
    os.close(reading)
    feed(writing, sys.stdin.buffer.read(), piece)


def held(descriptor):
    """How many bytes wait in a pipe."""
    waiting = array.array('i', [0])
    fcntl.ioctl(descriptor, termios.FIONREAD, waiting)
    return waiting[0]


def wait_until_full(descriptor, most):
    ends = time.monotonic() + 5
    while held(descriptor) < most and time.monotonic() < ends:
        time.sleep(0.001)


def cut_short():
    """Stops and continues a program that waits in a write: what it has written so far is all that this write brings."""
    os.kill(program.pid, signal.SIGSTOP)
    os.waitpid(program.pid, os.WUNTRACED)
    os.kill(program.pid, signal.SIGCONT)


def copy(descriptor, most):
    """Copies so many bytes, a few at a time, or as many as there are."""
    while most > 0:
        got = os.read(descriptor, min(most, 7))
        if not got:
            return
        sys.stdout.buffer.write(got)
        most -= len(got)


def short_writes():
    reading, writing = os.pipe()
    fcntl.fcntl(writing, fcntl.F_SETPIPE_SZ, 1)
    most = fcntl.fcntl(writing, fcntl.F_GETPIPE_SZ)
    start(stdout=writing)
    os.close(writing)
    for _ in range(2):
        wait_until_full(reading, most)
        # of a program that writes too little, or has ended, no write can be cut
        if held(reading) == most:
            cut_short()
        copy(reading, most)
    copy(reading, sys.maxsize)


def by_writes(room):
    """A socket that keeps each write apart, and refuses one that is longer than its room."""
    ours, theirs = socket.socketpair(socket.AF_UNIX, socket.SOCK_SEQPACKET)
    if room:
        theirs.setsockopt(socket.SOL_SOCKET, socket.SO_SNDBUF, room)
    start(stdout=theirs.fileno())
    theirs.close()
    writes = 0
    while True:
        got = ours.recv(1 << 20)
        if not got:
            break
        writes += 1
        sys.stdout.buffer.write(got)
    if not room:
        print(f'{writes} writes', file=sys.stderr)


if how == 'short':
    short_writes()
elif how == 'apart':
    by_writes(0)
elif how == 'refused':
    by_writes(4096)
else:
    in_pieces(int(how))
sys.exit(program.wait())
