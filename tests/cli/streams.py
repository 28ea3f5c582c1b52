"""Streams that the tests give to the program: pipes, sockets and devices that fail, dawdle or never end."""
import array
import contextlib
import fcntl
import os
import socket
import termios
import threading


@contextlib.contextmanager
def opened(path, flags):
    file = os.open(path, flags)
    yield file
    os.close(file)


@contextlib.contextmanager
def unread_pipe():
    """A pipe whose reader is gone."""
    reader, writer = os.pipe()
    os.close(reader)
    yield writer
    os.close(writer)


@contextlib.contextmanager
def full_pipe():
    """A pipe that is full and has no one wait."""
    reader, writer = os.pipe()
    os.set_blocking(writer, False)
    with contextlib.suppress(BlockingIOError):
        while True:
            os.write(writer, b"x")
    yield writer
    os.close(reader)
    os.close(writer)


@contextlib.contextmanager
def feeding(send, writer, feed):
    """A thread feeds what it likes into the writer, and closes it."""

    def write():
        with contextlib.suppress(BrokenPipeError, ConnectionResetError):
            feed(send)
        writer.close()

    thread = threading.Thread(target=write, daemon=True)
    thread.start()
    yield
    thread.join()


@contextlib.contextmanager
def written(kind, feed):
    """A source that a thread feeds through a pair of sockets, or through a pipe where there is no kind of them."""
    if kind:
        reader, writer = socket.socketpair(socket.AF_UNIX, kind)
    else:
        reader, writer = (os.fdopen(end, mode, 0) for end, mode in zip(os.pipe(), ("rb", "wb")))
    with feeding(writer.send if kind else writer.write, writer, feed):
        yield reader
        reader.close()


def pieces(given, size):
    """A source that gives exactly so many bytes at each call."""
    return written(socket.SOCK_SEQPACKET, lambda send: [send(given[i : i + size]) for i in range(0, len(given), size)])


@contextlib.contextmanager
def failing_behind(given):
    """A source that gives these bytes, and fails at the next call: its other end was closed with bytes unread."""
    reader, writer = socket.socketpair()
    writer.sendall(given)
    reader.sendall(b"unread")
    writer.close()
    yield reader
    reader.close()


@contextlib.contextmanager
def silent_pipe():
    """A pipe to which nothing comes."""
    reader, writer = os.pipe()
    yield reader
    os.close(reader)
    os.close(writer)


def unread(pipe):
    """The number of bytes that wait in a pipe."""
    count = array.array("i", [0])
    fcntl.ioctl(pipe, termios.FIONREAD, count)
    return count[0]
