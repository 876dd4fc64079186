"""What the checks start, each in a folder of its own and at a free port of the loopback: hipsd, and nginx before it. And how these are
asked.
"""

import http.client
import os
import random
import re
import socket
import ssl
import struct
import subprocess
import threading
import time
from contextlib import suppress
from pathlib import Path

TOP = Path(__file__).resolve().parents[2]
SCRIPTS, EXAMPLES, DOCS = TOP / "scripts", TOP / "examples", TOP / "docs"
PROGRAM = Path(os.environ.get("HIPSD_PROGRAM") or TOP / "crates/hipsd/out/hipsd").resolve()
# The scripts of examples/ take the program from there, and they call what isn't on everybody's path.
os.environ |= {"HIPSD_PROGRAM": str(PROGRAM), "PATH": os.environ["PATH"] + ":/usr/sbin"}
ROOT = os.geteuid() == 0


# ---- addresses


def free_port():
    """A port at which nobody listens, and none of those that clients get: a check beside this one may connect at any moment."""
    while True:
        with socket.socket() as free, suppress(OSError):
            free.bind(("127.0.0.1", random.randrange(10_000, 32_000)))
            return free.getsockname()[1]


def wait_until(is_so, fault="it takes too long", seconds=60, process=None):
    """Waits until this is so, and fails where it takes longer or where the process ends."""
    until = time.monotonic() + seconds
    while not is_so():
        if time.monotonic() > until or (process and process.poll() is not None):
            raise AssertionError(fault() if callable(fault) else fault)
        time.sleep(0.02)


def is_listening(address):
    """Whether somebody listens at an address or a path, by the system's tables: a trial would take a connection."""
    if "/" in address:
        return any(row.endswith(f" {address}") and " 00010000 " in row for row in Path("/proc/net/unix").read_text().splitlines())
    port = f":{int(address.rpartition(':')[2]):04X}"
    rows = [row.split() for name in ("tcp", "tcp6") for row in Path("/proc/net", name).read_text().splitlines()]
    return any(row[3] == "0A" and row[1].endswith(port) for row in rows)


# ---- requests


def connect(address, source=None, seconds=60):
    """A socket that is connected to an address or a path, from an address if one is named."""
    if "/" in address:
        one = socket.socket(socket.AF_UNIX)
        one.settimeout(seconds)
        one.connect(address)
        return one
    host, _, port = address.rpartition(":")
    return socket.create_connection((host, int(port)), seconds, (source, 0) if source else None)


def send(one, requests):
    with suppress(ConnectionError):
        one.sendall(requests)
        one.shutdown(socket.SHUT_WR)


def break_off(one):
    """Closes a connection with a reset in place of an end."""
    one.setsockopt(socket.SOL_SOCKET, socket.SO_LINGER, struct.pack("ii", 1, 0))
    one.close()


def exchange(address, requests, source=None, seconds=60):
    """All that is answered to these bytes and their end, by a connection of their own, until the other side ends it too."""
    came = []
    with connect(address, source, seconds) as one:
        sender = threading.Thread(target=send, args=(one, requests))
        sender.start()
        # It is ended with requests unread where as many are answered as may be.
        with suppress(ConnectionError):
            while part := one.recv(1 << 20):
                came.append(part)
        sender.join()
    return b"".join(came)


def replies(reader, count):
    """Code and body of so many replies that a connection's file has."""
    for _ in range(count):
        code, length = int(reader.readline().split()[1]), 0
        while (line := reader.readline()) not in (b"\r\n", b""):
            name, _, value = line.partition(b":")
            length = int(value) if name.lower() == b"content-length" else length
        yield code, reader.read(length)


def request(method, path, body=b"", *fields, version=b"1.1"):
    """The bytes of a request, with a length if it has a body or is a PUT."""
    length = (b"Content-Length: %d" % len(body),) if body or method == b"PUT" else ()
    return b"\r\n".join((b"%s %s HTTP/%s" % (method, path, version), b"Host: a", *length, *fields, b"", body))


def ask(address, method, path, body=None, fields=(), tls=False, source=None):
    """Code, fields and body of a reply to a request of its own connection; by TLS whatever the certificate."""
    where = {"timeout": 60, "source_address": (source, 0) if source else None}
    one = http.client.HTTPSConnection(address, context=ssl._create_unverified_context(), **where) if tls else http.client.HTTPConnection(address, **where)
    try:
        one.request(method, f"/{path}", body, dict(fields))
        reply = one.getresponse()
        return reply.status, reply.headers, reply.read()
    finally:
        one.close()


# ---- processes


class Running:
    """A process that ends with what it is a context of."""

    def begin(self, words, address, said, **more):
        """Starts it, and waits until it listens. What it says is in a file."""
        with said.open("wb") as errors:
            self.process = subprocess.Popen(list(map(str, words)), stderr=errors, **more)
        try:
            wait_until(lambda: is_listening(address), lambda: f"nobody listens at {address}: {said.read_text()}", process=self.process)
        except AssertionError:
            self.end()
            raise

    def __enter__(self):
        return self

    def __exit__(self, *_):
        self.end()

    def end(self):
        self.process.terminate()
        self.process.wait()


class Server(Running):
    """hipsd over a folder, whose log and output are files beside that."""

    def __init__(self, folder, connections=65_536, places=64, address=None, **environment):
        self.folder, self.address = Path(folder), str(address or f"127.0.0.1:{free_port()}")
        self.base = f"http://{self.address}"
        self.log, self.output = (self.folder.with_name(f"{self.folder.name}.{name}") for name in ("log", "output"))
        with self.output.open("wb") as output:
            self.begin([PROGRAM, "serve", self.address, connections, places], self.address, self.log, cwd=folder, stdout=output,
                       env={**os.environ, **environment})

    def said(self):
        return self.log.read_text(errors="backslashreplace")

    def tells(self, text):
        """Waits until the log has this: a request is said after its reply was sent."""
        wait_until(lambda: text in self.said(), lambda: f"no {text!r} in {self.said()}", 20)


class Nginx(Running):
    """nginx with these lines of HTTP, and with its files in a folder."""

    def __init__(self, folder, port, text, processes=1, connections=512):
        self.folder, self.address = folder, f"127.0.0.1:{port}"
        (folder / "nginx.conf").write_text(
            f"{'user www-data; ' * ROOT}worker_processes {processes}; daemon off; pid {folder}/nginx.pid; error_log {folder}/error.log;\n"
            f"events {{ worker_connections {connections}; }}\nhttp {{\n    access_log off; client_body_temp_path {folder}/bodies;\n"
            f"    proxy_temp_path {folder}/replies;\n{text}\n}}\n"
        )
        self.begin(["nginx", "-c", folder / "nginx.conf", "-p", folder], self.address, folder / "refused")
        # It is written after nginx listens.
        wait_until(lambda: (folder / "nginx.pid").exists() and (folder / "nginx.pid").read_text())


class Proxy(Nginx):
    """nginx with examples/nginx.conf before a server, but for ports and folders of a check; the editor's password is `secret`. With TLS at
    a second port, if that is asked for: plain edits are then refused, unless they are to be taken from this machine all the same."""

    def __init__(self, folder, server, tls=False, plain_edits=False, **more):
        port, self.connections = free_port(), more.get("connections", 512)
        self.secure, self.server_file = f"127.0.0.1:{free_port()}", folder / "port"
        self.server_file.write_text((EXAMPLES / "hipsd.server.conf").read_text().replace("unix:/run/hipsd/survey0", server))
        changes = [("/etc/nginx/hipsd.server.conf", self.server_file), ("listen 80;", f"listen 127.0.0.1:{port};"), ("listen [::]:80;", ""),
                   ("/etc/nginx/hipsd.users", folder / "users"), ("/var/cache/nginx-hipsd", folder / "cache"), ("/var/log/nginx", folder),
                   ("/run/hipsd.", f"{folder}/")]
        site = (EXAMPLES / "nginx.conf").read_text()
        if tls:
            site = re.sub("^ *#tls if .*\n", "", site, flags=re.M) if plain_edits else site
            site = site.replace("#tls ", "")
            changes += [("/etc/ssl/certs/hipsd.pem", folder / "hipsd.pem"), ("/etc/ssl/private/hipsd.key", folder / "hipsd.key"),
                        ("listen 443", f"listen {self.secure}"), ("listen [::]:443 ssl;", "")]
            command = "openssl req -x509 -newkey rsa:2048 -nodes -days 2 -subj /CN=hips.example.org -addext subjectAltName=DNS:hips.example.org"
            subprocess.run([*command.split(), "-keyout", folder / "hipsd.key", "-out", folder / "hipsd.pem"], check=True, capture_output=True)
        for old, new in changes:
            assert old in site, f"examples/nginx.conf has no {old}"
            site = site.replace(old, str(new))
        hashed = subprocess.run(["openssl", "passwd", "-6", "-stdin"], input="secret\n", capture_output=True, text=True, check=True).stdout
        (folder / "users").write_text(f"editor:{hashed}")
        super().__init__(folder, port, site, **more)
