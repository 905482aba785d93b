"""A page with the farm's status, to be read in a browser.

Owes the filters that nothing can be asked of the farm through it: it answers four requests, and all only read.
"""
from __future__ import annotations

import base64
import hashlib
import http.server
import ipaddress
import json
import os
import re
import signal
import socket
import socketserver
import sys
import threading
from typing import Any, Callable, NamedTuple

from agent.counts import Sample
from agent.faults import FarmFault, show
from agent.service.carried import plain
from agent.service.client import NoFarm
from agent.service.operators import Past, Status
from agent.web import metrics

PAST = re.compile(r"/history\.json\?after=([0-9]{1,15})", re.ASCII)
PAGE = os.path.join(os.path.dirname(os.path.abspath(__file__)), "page.html")


def policy_of(page: str) -> str:
    """What the page may load: its own script and style, and what the server tells."""
    def allowed(tag: str) -> str:
        found = re.findall(rf"<{tag}>(.*?)</{tag}>", page, re.DOTALL)
        return " ".join(f"'sha256-{base64.b64encode(hashlib.sha256(text.encode()).digest()).decode()}'" for text in found)

    return (
        f"default-src 'none'; script-src {allowed('script')}; style-src {allowed('style')}; connect-src 'self'; base-uri 'none'; "
        "form-action 'none'; frame-ancestors 'none'"
    )


def is_loopback(address: str) -> bool:
    """Whether what listens there is reached from this machine alone."""
    found = ipaddress.ip_address(address)
    return (getattr(found, "ipv4_mapped", None) or found).is_loopback


class Sources(NamedTuple):
    """What the page asks."""

    read: Callable[[], Status]
    past: Callable[[int], Past]  # the events after a number
    counted: Callable[[], tuple[Sample, ...]] = tuple  # by this machine's agents


class Server(http.server.ThreadingHTTPServer):
    daemon_threads = True

    def __init__(self, address: str, port: int, sources: Sources) -> None:
        self.read, self.past, self.counted = sources
        with open(PAGE, encoding="utf-8") as file:
            self.page = file.read()
        self.policy = policy_of(self.page)
        found = socket.getaddrinfo(address, None, type=socket.SOCK_STREAM)
        self.address_family, *_, place = min(found, key=lambda each: each[0] != socket.AF_INET)
        self.server_name = f"[{address.replace('%', '%25')}]" if ":" in address else address  # as a URL spells it
        where: Any = (place[0], port, *place[2:])
        super().__init__(where, Answer)
        self.is_loopback = is_loopback(str(self.server_address[0]))

    def server_bind(self) -> None:
        """Listens without asking what else the address is called, which can take long. All addresses of IPv6 are all of IPv4 too."""
        if self.address_family == socket.AF_INET6:
            self.socket.setsockopt(socket.IPPROTO_IPV6, socket.IPV6_V6ONLY, 0)
        socketserver.TCPServer.server_bind(self)
        self.server_port = self.server_address[1]

    def handle_error(self, request: Any, client_address: Any) -> None:
        """Who asked may be gone again: that is no fault."""
        if not isinstance(sys.exception(), (ConnectionError, TimeoutError)):
            super().handle_error(request, client_address)

    def may_ask(self, host: str) -> bool:
        """Whether a request's Host is one of this server's. Else another site's name leads here, and its scripts would read the answer."""
        names = [self.server_name, "localhost", "127.0.0.1", "[::1]"]
        is_ours = host in [f"{name}:{self.server_port}" for name in names] or self.server_port == 80 and host in names
        return not self.is_loopback or is_ours


class Answer(http.server.BaseHTTPRequestHandler):
    server: Server
    timeout = 10

    def do_GET(self) -> None:
        if not self.server.may_ask(self.headers.get("Host", "")):
            self._answer(403, "text/plain", b"this server has another name")
        elif self.path == "/":
            self._answer(200, "text/html; charset=utf-8", self.server.page.encode())
        elif self.path == "/status.json":
            self._answer_with("application/json", lambda: json.dumps(plain(self.server.read())))
        elif self.path == "/metrics":
            self._answer_with(metrics.KIND, self._metrics)
        elif found := PAST.fullmatch(self.path):
            self._tell_past(int(found[1]))
        else:
            self._answer(404, "text/plain", b"there is /, /status.json, /history.json?after=NUMBER and /metrics")

    def _metrics(self) -> str:
        """The farm's, and what this machine's agents counted. Where a machine has nodes alone only these."""
        counted = self.server.counted()
        try:
            return metrics.of_farm(self.server.read()) + metrics.of_counts(counted)
        except NoFarm:
            if not counted:
                raise
            return metrics.of_counts(counted)

    def _tell_past(self, after: int) -> None:
        """The events after a number, each as a text, since what a file held may be none."""
        self._answer_with("application/json", lambda: json.dumps(plain(self.server.past(after))))

    def _answer_with(self, kind: str, text: Callable[[], str]) -> None:
        try:
            self._answer(200, kind, text().encode())
        except FarmFault as fault:
            self._answer(503, "text/plain; charset=utf-8", str(fault).encode())

    def _answer(self, status: int, kind: str, body: bytes) -> None:
        self.send_response(status)
        for name, value in (
            ("Content-Type", kind), ("Content-Length", str(len(body))), ("Content-Security-Policy", self.server.policy),
            ("Cache-Control", "no-store"), ("X-Content-Type-Options", "nosniff"), ("Referrer-Policy", "no-referrer"),
        ):
            self.send_header(name, value)
        self.end_headers()
        self.wfile.write(body)

    def log_message(self, format: str, *args: Any) -> None:
        pass


def serve(address: str, port: int, sources: Sources) -> int:
    """Serves until it is told to end."""
    try:
        server = Server(address, port, sources)
    except (OSError, OverflowError, ValueError) as fault:
        raise FarmFault(f"no page at {address!r}, port {port}: {getattr(fault, 'strerror', '') or fault}") from None
    for number in (signal.SIGINT, signal.SIGTERM, signal.SIGHUP):
        if signal.getsignal(number) != signal.SIG_IGN:  # whoever started it keeps it off, as nohup does
            signal.signal(number, lambda *_: threading.Thread(target=server.shutdown).start())
    show(f"http://{server.server_name}:{server.server_port}/", at_once=True)
    server.serve_forever()
    server.server_close()
    return 0
