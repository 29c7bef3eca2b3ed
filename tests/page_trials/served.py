"""A page that is served for a trial, and requests to it."""

import http.client
import json
import os
import signal
import subprocess
from contextlib import suppress
from pathlib import Path

from page_parts import ROOT, TOOLS

SECONDS = 90
SB = (ROOT / "litmus/store-buffering/sb.litmus").read_text()
# a hart that goes round for ever
LOOP = SB.replace(" lw x7,0(x8) | lw x7,0(x8) ;", " lw x7,0(x8) | lw x7,0(x8) ;\n l: j l | nop ;")

# A command in the background of a script ignores it, and so would the page that it starts: then no page would end.
signal.signal(signal.SIGINT, signal.default_int_handler)


class Served:
    def __init__(self, program=None, *words, page=TOOLS / "page", cwd=None, **environment):
        named = ["--program", str(program)] if program else []
        self.process = subprocess.Popen([page, *named, *words], stdout=subprocess.PIPE, text=True, cwd=cwd,
                                        env=os.environ | environment)
        self.address = self.process.stdout.readline().strip()
        _, _, self.host, self.secret, _ = self.address.split("/")
        self.port = int(self.host.split(":")[1])
        self.own = f"/{self.secret}/"
        # what a link begins with
        self.link = "#run="

    def request(self, method, path, body=None, **headers):
        """The status, the content and the reply; a header that is None is left out."""
        known = {"Host": self.host}
        if method == "POST":
            known |= {"Origin": f"http://{self.host}", "Content-Type": "application/json"}
        body = body if isinstance(body, bytes) or body is None else json.dumps(body).encode()
        if body is not None:
            known["Content-Length"] = str(len(body))
        known |= {name.replace("_", "-"): value for name, value in headers.items()}
        connection = http.client.HTTPConnection("127.0.0.1", self.port, timeout=SECONDS)
        try:
            connection.putrequest(method, path, skip_host=True, skip_accept_encoding=True)
            for name, value in known.items():
                if value is not None:
                    connection.putheader(name, value)
            connection.endheaders()
            self.sent(connection, body)
            reply = connection.getresponse()
            return reply.status, reply.read(), reply
        finally:
            connection.close()

    @staticmethod
    def sent(connection, body):
        """Sends a body. A server that refuses it by its head reads no more of it."""
        try:
            if body is not None:
                connection.send(body)
        except OSError:
            pass

    def ask(self, route, **members):
        """The status and the answer of a question."""
        status, content, _ = self.request("POST", self.own + route, members)
        return status, json.loads(content)

    def shelf(self):
        return json.loads(self.request("GET", self.own + "shelf")[1])

    def children(self):
        """The children of the server that run now."""
        found = []
        for task in Path(f"/proc/{self.process.pid}/task").iterdir():
            with suppress(OSError):  # the thread may have ended
                found += map(int, (task / "children").read_text().split())
        return found

    def end(self, by=signal.SIGINT):
        """The status with which a signal ends it, or None where it doesn't."""
        self.process.send_signal(by)
        try:
            return self.process.wait(SECONDS)
        except subprocess.TimeoutExpired:
            self.process.kill()
            self.process.wait()
            return None
