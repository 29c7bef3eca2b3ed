"""The server: who is let in, the files of the page, and its questions. It keeps nothing of a run: each question holds
the whole of it."""

import hmac
import json
import secrets
import sys
import threading
from http import HTTPStatus
from http.server import BaseHTTPRequestHandler, ThreadingHTTPServer
from pathlib import Path

from page_parts import answers, bringing, faults, guide, questions, shelf
from page_parts.calls import Calls, Failed, Gone

ADDRESS = "127.0.0.1"
SITE = Path(__file__).resolve().parent / "site"
KINDS = {".html": "text/html", ".css": "text/css", ".js": "text/javascript", ".svg": "image/svg+xml"}
# the files of the page by what a request names: it can name these and no other
FILES = {"" if path.name == "page.html" else path.name: (path, KINDS[path.suffix])
         for path in sorted(SITE.iterdir()) if path.suffix in KINDS}
HEADERS = {
    "Content-Security-Policy":
        "default-src 'none'; script-src 'self'; style-src 'self'; img-src 'self' blob:; connect-src 'self'; "
        "base-uri 'none'; form-action 'none'; frame-ancestors 'none'; require-trusted-types-for 'script'; "
        "trusted-types 'none'",
    "X-Content-Type-Options": "nosniff", "Referrer-Policy": "no-referrer", "Cache-Control": "no-store",
    "Cross-Origin-Resource-Policy": "same-origin", "Cross-Origin-Opener-Policy": "same-origin"}
JSON = "application/json"
# no length that is let in has this many digits
DIGITS = 18


class Handler(BaseHTTPRequestHandler):
    server_version, sys_version = "page", ""
    timeout = 60

    def do_GET(self):
        name = self.let_in(posting=False)
        if name == "shelf":
            self.reply(HTTPStatus.OK, self.server.shelf)
        elif name in FILES:
            path, kind = FILES[name]
            self.send(HTTPStatus.OK, f"{kind}; charset=utf-8", path.read_bytes())
        elif name in guide.PAGES:
            self.send(HTTPStatus.OK, "text/html; charset=utf-8", guide.page(name))
        elif name is not None:
            self.refuse(HTTPStatus.NOT_FOUND)

    def do_POST(self):
        name = self.let_in(posting=True)
        if name is None:
            return
        length = self.headers.get("Content-Length", "")
        if name not in self.server.answers:
            self.refuse(HTTPStatus.NOT_FOUND)
        elif not length.isascii() or not length.isdigit():
            self.refuse(HTTPStatus.LENGTH_REQUIRED)
        elif len(length) > DIGITS or int(length) > questions.BODY:
            self.refuse(HTTPStatus.REQUEST_ENTITY_TOO_LARGE)
        else:
            self.answer(name, self.rfile.read(int(length)))

    def answer(self, name, body):
        """Answers a question."""
        try:
            asked = questions.checked(name, json.loads(body, parse_int=questions.whole))
            with self.server.turn_of(name):
                said = self.server.answers[name](self.server.calls.of(self.connection), asked)
            self.reply(HTTPStatus.OK, said)
        except (questions.Unasked, json.JSONDecodeError, UnicodeDecodeError, RecursionError) as error:
            self.reply(HTTPStatus.BAD_REQUEST, {"error": f"bad request: {error}"})
        except faults.Fault as fault:
            self.reply(HTTPStatus.OK, {"fault": fault.said})
        except Failed as failed:
            self.reply(HTTPStatus.SERVICE_UNAVAILABLE, {"error": str(failed)})
        except Gone:
            self.close_connection = True

    def let_in(self, posting):
        """What a request asks for below the secret, or None where it isn't let in, which it was then told."""
        own = f"http://{ADDRESS}:{self.server.server_port}"
        if self.headers.get_all("Host", []) != [own.removeprefix("http://")]:
            self.refuse(HTTPStatus.FORBIDDEN)
        elif self.headers.get("Sec-Fetch-Site", "same-origin") not in ("same-origin", "none"):
            self.refuse(HTTPStatus.FORBIDDEN)
        elif self.headers.get("Origin", "" if posting else own) != own:
            self.refuse(HTTPStatus.FORBIDDEN)
        elif posting and self.headers.get("Content-Type") != JSON:
            self.refuse(HTTPStatus.UNSUPPORTED_MEDIA_TYPE)
        else:
            _, secret, *rest = (*self.path.split("/", 2), "")[:3]
            if hmac.compare_digest(secret.encode(), self.server.secret.encode()):
                return rest[0]
            if not posting and self.server.is_opening(secret):
                self.send(HTTPStatus.SEE_OTHER, "text/plain", b"", {"Location": f"/{self.server.secret}/"})
            else:
                self.refuse(HTTPStatus.NOT_FOUND)
        return None

    def refuse(self, status):
        self.close_connection = True
        self.reply(status, {"error": f"{status.value} {status.phrase}"})

    def reply(self, status, answer):
        self.send(status, JSON, json.dumps(answer).encode())

    def send(self, status, kind, content, more=None):
        try:
            self.send_response(status)
            for name, value in {"Content-Type": kind, "Content-Length": str(len(content)), **HEADERS,
                                **(more or {})}.items():
                self.send_header(name, value)
            self.end_headers()
            self.wfile.write(content)
        except OSError:
            self.close_connection = True

    def log_message(self, *_):
        pass


class Server(ThreadingHTTPServer):
    daemon_threads = True

    def __init__(self, port, program):
        super().__init__((ADDRESS, port), Handler)
        self.secret, self.once, self.lock = secrets.token_urlsafe(24), None, threading.Lock()
        self.address = f"http://{ADDRESS}:{self.server_port}/{self.secret}/"
        self.calls = Calls(program)
        self.answers = answers.ANSWERS | {name: answer for name, answer in answers.IF_IT_CAN.items()
                                          if name in program.can}
        self.shelf = shelf.shelf() | {
            "limits": questions.LIMITS,
            "program": program.named(), "unproved": program.unproved(),
            "can": {name: name in program.can for name in ("threads", "find", "memory")}
            | {"herd": True, "c": bringing.installed()}}
        # how many questions of a kind have a child at a time; the others wait. What may take a minute holds up no step
        self.turns = {"long": threading.BoundedSemaphore(1), "step": threading.BoundedSemaphore(2)}

    def turn_of(self, name):
        return self.turns["long" if name in ("draw", "threads", "find", "c") else "step"]

    def opening(self):
        """An address that leads to the page once, and no second time."""
        self.once = secrets.token_urlsafe(24)
        return f"http://{ADDRESS}:{self.server_port}/{self.once}/"

    def is_opening(self, secret):
        with self.lock:
            good = self.once is not None and hmac.compare_digest(secret.encode(), self.once.encode())
            if good:
                self.once = None
        return good

    def end(self):
        self.calls.end()

    def handle_error(self, request, client_address):
        if not isinstance(sys.exc_info()[1], OSError):
            super().handle_error(request, client_address)
