"""Asks a server of hipsd, by HTTP or HTTPS or at a Unix socket."""

import base64
import http.client
import netrc
import os
import re
import socket
import ssl
import time
from contextlib import contextmanager
from dataclasses import dataclass
from urllib.parse import urlsplit

from hipsctl.messages import Refused, say, shown

MOST_BODY = 2**26
DEFAULT = "http://127.0.0.1:8080"
# Codes of a server that is busy or paused, and those by which a proxy says that the server hasn't answered.
BUSY, UNANSWERED = (429, 503), (502, 504)


class NoAnswer(Exception):
    """A request wasn't answered: it may have been taken, or `unsent` says that it wasn't."""

    def __init__(self, text, unsent=False):
        super().__init__(text)
        self.unsent = unsent


@dataclass(frozen=True)
class Reply:
    """What was answered."""

    code: int
    fields: http.client.HTTPMessage
    body: bytes

    def number(self, name):
        """The number in a field, if it is one."""
        text = self.fields.get(name, "")
        return int(text) if re.fullmatch("[0-9]{1,9}", text) else None

    @property
    def text(self):
        """The first line of the body, as it may be shown."""
        return shown((self.body[:200].splitlines() or [b""])[0])


class AtSocket(http.client.HTTPConnection):
    def __init__(self, path, seconds):
        super().__init__("hipsd", timeout=seconds)
        self.path = path

    def connect(self):
        self.sock = socket.socket(socket.AF_UNIX)
        self.sock.settimeout(self.timeout)
        self.sock.connect(self.path)


def add_server(parser):
    """The option that names the server."""
    parser.add_argument("--server", metavar="ADDRESS", help="its URL, HOST:PORT, or the path of its Unix socket; if not said, what HIPSD_SOCKET or HIPSD "
                        f"names in the environment, or {DEFAULT}. A password stands in ~/.netrc; CURL_CA_BUNDLE names a file of certificates to trust")
    parser.add_argument("--tries", type=int, default=6, choices=range(1, 13), metavar="N", help="how often a server that is away or busy is asked, 6 if not said")


def server_of(told):
    at_socket = os.environ.get("HIPSD_SOCKET")
    return Server(told.server or (os.path.abspath(at_socket) if at_socket else os.environ.get("HIPSD") or DEFAULT))


class Server:
    """One server by its address."""

    def __init__(self, address):
        self.name = shown(address.removeprefix("unix:").rstrip("/"))
        if "/" in address and "://" not in address:
            self.socket, self.base, self.head = address.removeprefix("unix:"), "", {}
            return
        if not address.isascii() or not address.isprintable() or " " in address:
            raise Refused(f"'{shown(address)}' is no address of a server", 2)
        parts = urlsplit(address if "://" in address else f"http://{address}")
        self.socket, self.base = None, parts.path.rstrip("/")
        try:
            self.scheme, self.host, self.port = parts.scheme, parts.hostname, parts.port
        except ValueError:
            self.host = None
        if not self.host or self.scheme not in ("http", "https") or parts.query or parts.fragment or parts.username:
            raise Refused(f"'{shown(address)}' is no address of a server", 2)
        self.head = password(self.host)

    def connection(self, seconds):
        if self.socket is not None:
            return AtSocket(self.socket, seconds)
        if self.scheme == "http":
            return http.client.HTTPConnection(self.host, self.port, timeout=seconds)
        context = ssl.create_default_context(cafile=os.environ.get("CURL_CA_BUNDLE"))
        return http.client.HTTPSConnection(self.host, self.port, timeout=seconds, context=context)

    @contextmanager
    def connected(self, seconds=60):
        """A connection for several requests."""
        one = self.connection(seconds)
        try:
            one.connect()
            # A request on another connection would be answered from another state.
            one.auto_open = 0
        except ssl.SSLCertVerificationError as fault:
            raise Refused(f"not sent: the certificate of {self.name} isn't trusted ({fault.verify_message}); CURL_CA_BUNDLE names a file of those to trust") from None
        except OSError as fault:
            raise NoAnswer(f"nothing listens at {self.name}: {fault.strerror or fault}", unsent=True) from None
        try:
            yield one
        finally:
            one.close()

    def on(self, one, method, path, body=None, fields=()):
        """The reply to a request on a connection."""
        try:
            one.request(method, f"{self.base}/{path}", body, {**self.head, **dict(fields)})
        except (BrokenPipeError, ConnectionResetError):
            # It may be answered before the body was read.
            pass
        except (OSError, http.client.HTTPException) as fault:
            raise NoAnswer(reason(fault)) from None
        try:
            reply = one.getresponse()
            got = reply.read(MOST_BODY + 1)
        except (OSError, http.client.HTTPException) as fault:
            raise NoAnswer(reason(fault)) from None
        if len(got) > MOST_BODY:
            raise NoAnswer(f"more than {MOST_BODY:,} bytes are answered")
        return Reply(reply.status, reply.headers, got)

    def ask(self, method, path, body=None, fields=(), seconds=60):
        """The reply to a request of its own connection."""
        with self.connected(seconds) as one:
            return self.on(one, method, path, body, fields)

    def get(self, path, tries=6):
        """A file of the newest generation."""
        def once():
            try:
                reply = self.ask("GET", path)
            except NoAnswer as fault:
                raise (Busy(str(fault)) if fault.unsent else Refused(f"{self.name}: {fault}", 4)) from None
            if reply.code in BUSY:
                raise Busy(f"{reply.code} {reply.text}")
            return reply

        reply = patiently(self.name, tries, once)
        if reply.code != 200:
            raise Refused(f"{path} at {self.name} is answered {reply.code} {reply.text}".strip(), 4)
        return reply


class Busy(Exception):
    """Nothing was changed, and it may be tried again."""


def patiently(name, tries, once):
    """Tries again after 1, 2, 4, .. seconds while nothing was changed."""
    for pause in [*(2**number for number in range(tries - 1)), 0]:
        try:
            return once()
        except Busy as why:
            if not pause:
                raise Refused(f"nothing was changed: {why}", 4) from None
            say(f"nothing was changed at {name} ({why}); trying again in {pause} seconds")
            time.sleep(pause)


def reason(fault):
    return shown(getattr(fault, "strerror", None) or str(fault) or type(fault).__name__)


def password(host):
    """The field with the password that ~/.netrc has for a host."""
    try:
        found = netrc.netrc().authenticators(host)
    except FileNotFoundError:
        return {}
    except (netrc.NetrcParseError, OSError, UnicodeDecodeError) as fault:
        raise Refused(f"~/.netrc can't be read: {shown(str(fault))}", 3) from None
    if not found:
        return {}
    return {"Authorization": "Basic " + base64.b64encode(f"{found[0]}:{found[2]}".encode()).decode()}
