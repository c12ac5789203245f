#!/usr/bin/env python3
"""scripts/http_client.py: asks `example_http` as a client of the network does. It accepts on the loopback, and starts
the program for each connection with the socket as its streams, as inetd does. Without it nothing would show that it
serves a client that isn't its own. Each wait has a bound, and what is expected was worked out by hand."""
import contextlib
import subprocess
import threading
import time
from concurrent.futures import ThreadPoolExecutor
from http.client import HTTPConnection
from socket import SHUT_RDWR, SHUT_WR, create_connection, create_server

from common import program_of

WAIT = 20  # seconds, of each read
ONE_BY_ONE = (  # over one connection. A list is sent in chunks, and no page at /square needs a body
    ("/square/12", 200, "144"), ("/slow/20", 200, "at last"), ("/length", 200, "5", b"12345"),
    ("/nowhere", 404, "no such page"), ("/length", 200, "300000", b"x" * 300000), ("/slow/5000", 504, "too slow"),
    ("/length", 200, "5", [b"12", b"345"]), ("/length", 405, "not allowed"), ("/square/12", 405, "not allowed", b"abc"),
    ("/square/twelve", 400, "not a number"), ("/square/4294967296", 400, "not a number"),
    ("/square/12", 405, "not allowed", b"x" * 300000), ("/square/4294967295", 200, "18446744065119617025"),
)
GET = b"GET %s HTTP/1.1\r\nhost: h\r\n\r\n"
LAST = b"GET %s HTTP/1.1\r\nhost: h\r\nconnection: close\r\n\r\n"
TEXTS = (  # what is sent, which sides its client shuts then, and the statuses that come
    (GET % b"/square/2" + GET % b"/slow/50" + GET % b"/nowhere" + LAST % b"/square/3", 0, b"200 200 404 200"),
    (GET % b"/slow/200", SHUT_WR, b"200"), (b"", SHUT_WR, b""), (b"GET /square/2 HT", SHUT_WR, b""),
    (b"garbage\r\n\r\n", 0, b"400"), (b"GET /square/2 HTTP/1.1\r\nhost h\r\n\r\n", 0, b"400"),
    (b"GET / HTTP/1.1\r\n\r\n", 0, b"400"), (b"GET / HTTP/1.1\r\nhost: h\r\nhost: h\r\n\r\n", 0, b"400"),
    (GET % b"/slow/300", SHUT_RDWR, b""), (b"GET /squ", SHUT_RDWR, b""),
    (b"POST /length HTTP/1.1\r\nhost: h\r\ncontent-length: 9\r\n\r\nabc", SHUT_RDWR, b""),
)
LISTENER, STARTED = create_server(("127.0.0.1", 0), backlog=64), []


def accept():
    command = ["timeout", "60", program_of("example_http")]  # (so each ends)
    for _ in range(1000):
        with LISTENER.accept()[0] as it:
            STARTED.append(subprocess.Popen(command, stdin=it, stdout=it, stderr=subprocess.DEVNULL))


def answer(client, path, body=None, **headers):
    client.request("POST" if body else "GET", path, body, headers)
    response = client.getresponse()
    return response.status, response.read().decode()


threading.Thread(target=accept, daemon=True).start()
connect = lambda: HTTPConnection(*LISTENER.getsockname(), WAIT)
with contextlib.closing(connect()) as client:
    for path, status, told, *body in ONE_BY_ONE:
        began = time.monotonic()
        assert answer(client, path, *body) == (status, f"{told}\n"), path
        assert status != 504 or 0.5 <= time.monotonic() - began < 4
        client.auto_open = False
for text, sides, statuses in TEXTS:
    with create_connection(LISTENER.getsockname(), WAIT) as it:
        it.sendall(text)
        if sides:
            it.shutdown(sides)
        came = it.makefile("rb").read(10_000)
    assert [it[:3] for it in came.split(b"HTTP/1.1 ")] == [b"", *statuses.split()], (text, came)
for path in ("/length", "/nowhere"):
    with contextlib.suppress(OSError):  # a body longer than what the program reads: its client may be reset
        assert answer(connect(), path, b"x" * 1_100_000)[0] == 413, path
alone = lambda path: answer(connect(), path, connection="close")
assert [alone(f"/square/{side}") for side in range(200)] == [(200, f"{side * side}\n") for side in range(200)]
with ThreadPoolExecutor(20) as at_once:
    assert list(at_once.map(alone, ["/slow/300"] * 20)) == [(200, "at last\n")] * 20
assert {it.wait() for it in STARTED} <= {0, 1}  # each has ended
print(f"http client: {len(STARTED)} connections, each answered as expected")
