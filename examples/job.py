#!/usr/bin/env python3
"""Has a server make the rows of a program as a job, and writes them.

The server is `extractd serve`, or a proxy in front of it. The script submits the job, drives it to its end, fetches the rows and removes the job from the
server, even if it is interrupted. Rows go to standard output, or to a file that appears only when they are complete.
"""
# Needs only Python 3.8 or later.
#
# Polling: a job advances by one turn of 256 segments after each connection, so requests drive it and waiting doesn't. But each GET of the job returns all
# rows so far. So most requests are a GET of job 0, which never exists: a short 404. The script gets the job itself only now and then, to see its progress,
# and reads no more than the first line of the reply while the job isn't finished.

import argparse
import http.client
import os
import signal
import socket
import ssl
import sys
import time
from urllib.parse import urlsplit

SEGMENTS_PER_TURN = 256
# How long to send small requests before getting the job itself.
ROUND_SECONDS = 1.0
# How long to wait before trying again if the job can't be read just now.
PAUSES = (0.5, 1, 2, 4, 8, None)
PIECE = 65536
# Up to this much of a reply's rest is read to keep a proxy's connection. If there is more, the connection is closed.
SPARE = 65536


class Refused(Exception):
    """The server's own message, for a status other than 200."""

    def __init__(self, response, text, before=""):
        super().__init__(before + (text or "%d %s" % (response.status, response.reason)))
        self.status = response.status


class Failed(Exception):
    """A file, a connection or an output that can't be used."""


class Stopped(Exception):
    """A signal has arrived."""

    def __init__(self, number):
        super().__init__()
        self.number = number


class Server:
    """Sends requests one after the other, over one connection if the other side keeps it open."""

    def __init__(self, url, context, timeout):
        parts = urlsplit(url)
        if parts.scheme not in ("http", "https") or not parts.hostname or parts.username is not None or parts.query or parts.fragment:
            raise ValueError("not http://HOST:PORT or https://HOST:PORT")
        self.url = url
        self.path = parts.path.rstrip("/")
        if parts.scheme == "https":
            self.connection = http.client.HTTPSConnection(parts.hostname, parts.port, timeout=timeout, context=context)
        else:
            self.connection = http.client.HTTPConnection(parts.hostname, parts.port, timeout=timeout)

    def ask(self, method, path, body=None):
        """Returns the response to one request after reading its head. Only a GET reuses a connection, since the other side may just have closed it."""
        if method != "GET":
            self.connection.close()
        kept = self.connection.sock is not None
        try:
            self.connection.request(method, self.path + path, body)
            return self.connection.getresponse()
        except (OSError, http.client.HTTPException) as fault:
            self.connection.close()
            if kept and not isinstance(fault, socket.timeout):
                return self.ask(method, path, body)
            raise self.failure(fault) from None

    def read(self, response, count=None):
        try:
            return response.read(count)
        except (OSError, http.client.HTTPException) as fault:
            raise self.failure(fault) from None

    def finish(self, response):
        """Reads the rest of a reply if it is short, and closes the connection if not."""
        if response.length is not None and response.length <= SPARE:
            self.read(response)
        else:
            response.close()
            self.connection.close()

    def text(self, method, path, body=None):
        """Returns the text of a reply. Raises Refused if its status isn't 200."""
        response = self.ask(method, path, body)
        text = self.read(response, SPARE).decode("utf-8", "replace").strip()
        if response.status != 200:
            raise Refused(response, text)
        return text

    def failure(self, fault):
        self.connection.close()
        return Failed("%s: %s" % (self.url, getattr(fault, "strerror", None) or str(fault) or type(fault).__name__))


class Bar:
    """Shows progress on standard error if that is a terminal."""

    def __init__(self):
        self.shown = sys.stderr.isatty()

    def show(self, done, total):
        if self.shown:
            width = 40
            full = width * done // total if total else width
            sys.stderr.write("\r[%s%s] %d of %d segments" % ("#" * full, "." * (width - full), done, total))
            sys.stderr.flush()

    def end(self):
        if self.shown:
            sys.stderr.write("\r\033[K")
            sys.stderr.flush()


class Job:
    def __init__(self, server, program):
        self.server = server
        self.id = server.text("POST", "/jobs", program)
        if not self.id.isdigit():
            raise Failed("%s: this is no server of jobs" % server.url)

    def fetch(self, out):
        """Returns how many segments are done and how many there are. Writes the rows to `out` if all are done."""
        for pause in PAUSES:
            response = self.server.ask("GET", "/jobs/" + self.id)
            if response.status == 200:
                break
            text = self.server.read(response, SPARE).decode("utf-8", "replace").strip()
            if response.status not in (502, 503, 504) or pause is None:
                raise Refused(response, text, "job %s: " % self.id)
            # The server is out of memory, or a proxy is overloaded: nothing has changed.
            time.sleep(pause)
        # Two numbers below 2^64, a blank and LF.
        line = b""
        while not line.endswith(b"\n") and len(line) < 42:
            byte = self.server.read(response, 1)
            if not byte:
                break
            line += byte
        try:
            done, total = (int(word) for word in line.split())
        except ValueError:
            raise Failed("%s: this is no reply of a server of jobs" % self.server.url) from None
        if done < total:
            self.server.finish(response)
            return done, total
        while True:
            left = response.length
            piece = self.server.read(response, PIECE)
            if not piece:
                break
            out(piece)
        if left:
            raise Failed("%s: the reply ended before its %d last bytes" % (self.server.url, left))
        return done, total

    def nudge(self):
        """Sends a request that causes a turn and returns no rows."""
        self.server.read(self.server.ask("GET", "/jobs/0"))

    def drive(self, bar, out):
        done, total = self.fetch(out)
        while done < total:
            bar.show(done, total)
            began = time.monotonic()
            # A turn follows each request, including the one that read the progress.
            turns = -(-(total - done) // SEGMENTS_PER_TURN) - 1
            while turns > 0 and time.monotonic() - began < ROUND_SECONDS:
                self.nudge()
                turns -= 1
            before = done
            done, total = self.fetch(out)
            if done == before:
                # All turns went to jobs with less progress, or memory ran out: leave half of the time to others.
                time.sleep(min(1.0, max(0.01, time.monotonic() - began)))
        bar.show(done, total)

    def remove(self):
        try:
            self.server.text("DELETE", "/jobs/" + self.id)
        except (Refused, Failed, Stopped) as fault:
            # 404: it is already gone.
            if getattr(fault, "status", None) != 404:
                sys.stderr.write("job %s may still be open\n" % self.id)


class Output:
    """Writes to standard output, or to a file that gets its name when it is complete."""

    def __init__(self, name):
        self.name = name
        self.part = None
        self.file = sys.stdout.buffer
        if name is not None:
            part = "%s.%d.part" % (name, os.getpid())
            try:
                self.file = open(part, "xb")
            except OSError as fault:
                raise self.failure(fault) from None
            self.part = part

    def write(self, piece):
        try:
            self.file.write(piece)
        except OSError as fault:
            raise self.failure(fault) from None

    def keep(self):
        try:
            self.file.flush()
            if self.part is not None:
                self.file.close()
                os.replace(self.part, self.name)
                self.part = None
        except OSError as fault:
            raise self.failure(fault) from None

    def drop(self):
        if self.part is not None:
            try:
                self.file.close()
            except OSError:
                # What wasn't written yet isn't needed either.
                pass
            try:
                os.unlink(self.part)
            except OSError as fault:
                sys.stderr.write("%s is left: %s\n" % (self.part, fault.strerror))
            self.part = None

    def failure(self, fault):
        if self.name is None:
            # Python flushes standard output again at its end, and would fail again.
            os.dup2(os.open(os.devnull, os.O_WRONLY), sys.stdout.fileno())
        return Failed("%s: %s" % (self.name or "the output", fault.strerror))


class Signals:
    """Raises Stopped at Ctrl-C and the like. A signal is held back during a request that must not be cut, and also after another was raised."""

    def __init__(self):
        self.held = False
        self.pending = None
        for name in ("SIGINT", "SIGTERM", "SIGHUP"):
            if hasattr(signal, name):
                signal.signal(getattr(signal, name), self.meet)

    def meet(self, number, _frame):
        if self.held and self.pending is None:
            self.pending = number
        else:
            self.hold()
            raise Stopped(number)

    def hold(self):
        self.held, self.pending = True, None

    def release(self):
        self.held = False
        if self.pending is not None:
            raise Stopped(self.pending)


def arguments(words):
    parser = argparse.ArgumentParser(
        description=__doc__.split("\n\n")[0],
        epilog="Exit status: 0 where all rows are written; 1 where the server refuses, and its line is on standard error; 2 for a command line that can't "
        "be used; 3 for a file, a connection or an output that can't; 128 and the signal's number where it was interrupted. Many requests are made, one after "
        "the other, since they are what drives a job.",
    )
    parser.add_argument("program", metavar="PROGRAM", help="the program's words, as `extractd asm` writes them; - is standard input")
    parser.add_argument("--server", metavar="URL", default="http://127.0.0.1:8080", help="http://HOST:PORT or https://HOST:PORT (%(default)s)")
    parser.add_argument("--output", metavar="FILE", help="where the rows go, in place of standard output")
    parser.add_argument("--timeout", metavar="SECONDS", type=float, default=600, help="how long one reply is waited for (%(default)s)")
    trust = parser.add_mutually_exclusive_group()
    trust.add_argument("--ca", metavar="FILE", help="a certificate (PEM) to trust, as a proxy's own")
    trust.add_argument("--insecure", action="store_true", help="trust any certificate: the rows and the program may be anybody's then")
    given = parser.parse_args(words)
    try:
        context = ssl.create_default_context(cafile=given.ca)
    except OSError as fault:
        parser.error("--ca %s: %s" % (given.ca, fault.strerror or fault))
    if given.insecure:
        context.check_hostname = False
        context.verify_mode = ssl.CERT_NONE
    if not 0 < given.timeout < 1e6:
        parser.error("--timeout is above 0, and below a million")
    try:
        return given, Server(given.server, context, given.timeout)
    except ValueError as fault:
        parser.error("--server %s: %s" % (given.server, fault))


def run(given, server, signals):
    try:
        if given.program == "-":
            program = sys.stdin.buffer.read()
        else:
            with open(given.program, "rb") as file:
                program = file.read()
    except OSError as fault:
        raise Failed("%s: %s" % (given.program, fault.strerror)) from None
    output, bar, job = Output(given.output), Bar(), None
    try:
        # The job can be removed only by its id, so this request isn't cut.
        signals.hold()
        job = Job(server, program)
        signals.release()
        job.drive(bar, output.write)
        output.keep()
    finally:
        signals.hold()
        bar.end()
        output.drop()
        if job is not None:
            job.remove()


def main(words):
    given, server = arguments(words)
    signals = Signals()
    try:
        run(given, server, signals)
        return 0
    except Refused as fault:
        sys.stderr.write("%s\n" % fault)
        return 1
    except Failed as fault:
        sys.stderr.write("error: %s\n" % fault)
        return 3
    except Stopped as fault:
        return 128 + fault.number


if __name__ == "__main__":
    sys.exit(main(sys.argv[1:]))
