"""Who is let in, and which questions are refused."""

from page_trials.served import SB, Served


def part(count, program):
    served = Served(program)
    try:
        let_in(count, served)
        kept_out(count, served)
        questions(count, served)
    finally:
        count.told("Ctrl-C ends it", served.end() == 0)


def let_in(count, served):
    status, content, reply = served.request("GET", served.own)
    count.told("the page with its secret", status == 200 and b"<title>ztso" in content, status)
    policy = reply.getheader("Content-Security-Policy")
    count.told("a policy", "default-src 'none'" in policy and "script-src 'self'" in policy, policy)
    count.told("no origin is let in", reply.getheader("Access-Control-Allow-Origin") is None)
    listening = open("/proc/net/tcp", encoding="ascii").read()
    here = f"0100007F:{served.port:04X} "
    count.told("it listens on 127.0.0.1 alone", here in listening and f"00000000:{served.port:04X} 0" not in listening)
    for name in ("page.css", "machine.css", "main.js", "icon.svg"):
        count.told(name, served.request("GET", served.own + name)[0] == 200)
    for name, wanted in (("guide.html", b'<h2 id="limits">Limits</h2>'), ("project.html", b'<a href="guide.html">')):
        status, content, _ = served.request("GET", served.own + name)
        count.told(name, status == 200 and wanted in content and b"<script" not in content, content[:200])


def kept_out(count, served):
    own, port = served.own, served.port
    question = ("POST", own + "test", {"text": SB})
    for name, status, call, headers in (
            ("no secret", 404, ("GET", "/"), {}),
            ("a wrong secret", 404, ("GET", "/x" * 16 + "/"), {}),
            ("the secret cut short", 404, ("GET", own[:-2] + "/"), {}),
            ("a secret of other letters", 404, ("GET", "/%e4%ff/"), {}),
            ("a name that resolves here", 403, ("GET", own), {"Host": f"example.org:{port}"}),
            ("no Host", 403, ("GET", own), {"Host": None}),
            ("localhost in place of the address", 403, ("GET", own), {"Host": f"localhost:{port}"}),
            ("asked by another site", 403, ("GET", own), {"Sec_Fetch_Site": "cross-site"}),
            ("a question of another site", 403, question, {"Sec_Fetch_Site": "same-site"}),
            ("another origin", 403, question, {"Origin": "http://example.org"}),
            ("the origin null", 403, question, {"Origin": "null"}),
            ("no origin", 403, question, {"Origin": None}),
            ("another port's origin", 403, question, {"Origin": "http://127.0.0.1:1"}),
            ("a form's type", 415, question, {"Content_Type": "text/plain"}),
            ("no type", 415, question, {"Content_Type": None}),
            ("a body past the limit", 413, ("POST", own + "test", b""), {"Content_Length": str(1 << 30)}),
            ("no length", 411, ("POST", own + "test"), {}),
            ("a path up", 404, ("GET", own + "../../README.md"), {}),
            ("a length of 5,000 digits", 413, ("POST", own + "test", b""), {"Content_Length": "9" * 5000}),
            ("a path up, in code", 404, ("GET", own + "%2e%2e/%2e%2e/README.md"), {}),
            ("a file beside the page", 404, ("GET", own + "server.py"), {}),
            ("the page by its file", 404, ("GET", own + "page.html"), {}),
            ("a path up from the shelf", 404, ("GET", own + "shelf/../../VERSION"), {}),
            ("a question that isn't one", 404, ("POST", own + "read_text", {"text": SB}), {}),
            ("another method", 501, ("PUT", own, b""), {}),
            ("a method that asks for leave", 501, ("OPTIONS", own + "test"), {"Origin": "http://example.org"})):
        got, content, reply = served.request(*call, **headers)
        good = got == status and b"root:" not in content and not reply.getheader("Access-Control-Allow-Origin")
        count.told(f"refused: {name}", good, got)


def questions(count, served):
    run = {"text": SB, "buffer": 4, "tokens": ""}
    draw = {"text": SB, "buffer": 4, "draw": "uniform", "seed": "1", "skip": 0, "runs": 1, "length": 1}
    for name, route, body in (
            ("no JSON", "test", b"{"), ("deep JSON", "test", b"[" * 100000), ("no UTF-8", "test", b'{"text":"\xff"}'),
            ("a number of 5,000 digits", "test", b'{"text":' + b"9" * 5000 + b"}"),
            ("no object", "test", b"[]"), ("a member more", "test", {"text": SB, "file": "/etc/passwd"}),
            ("a member less", "view", {"text": SB}), ("a text that is none", "test", {"text": 1}),
            ("another buffer", "view", run | {"buffer": 3}), ("a buffer that is true", "view", run | {"buffer": True}),
            ("a text in the tokens", "view", run | {"tokens": "a0\nl0"}),
            ("an option in the tokens", "view", run | {"tokens": "--svg"}),
            ("rows of the browser's", "chart", run | {"rows": "--svg"}),
            ("a hart that is none", "onward", run | {"hart": 64}), ("no runs", "draw", draw | {"runs": 0}),
            ("a draw that is none", "draw", draw | {"draw": "--jobs"}),
            ("too many runs", "draw", draw | {"runs": 100001}), ("a length too long", "draw", draw | {"length": 2001}),
            ("breaks of text", "seek", run | {"place": 0, "breaks": [["0", "g"]]}),
            ("a compiler of the browser's", "c", {"text": "", "compiler": "sh", "fences": "all", "mapping": ""}),
            ("a mapping with a path", "c", {"text": "", "compiler": "gcc", "fences": "all", "mapping": "/etc/passwd"})):
        got, _, _ = served.request("POST", served.own + route, body)
        count.told(f"refused: {name}", got == 400, got)
    fault = served.ask("draw", **draw | {"seed": "--skip"})[1].get("fault", {})
    count.told("an option as a seed is no seed", fault.get("name") == "BadSeed", fault)

