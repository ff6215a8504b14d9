"""Pages of other sites in the browser: under a name that leads to loopback nothing is read, and what they send is refused."""

from __future__ import annotations

import http.server
import json
import threading
from pathlib import Path

HERE = Path(__file__).resolve().parent.parent.parent
# The browser takes this name for 127.0.0.1.
NAME = "elsewhere.test"
# A page with a form that is sent to the address after its question mark, and with a script that sends the same.
FORM = """<!doctype html><title>another site</title><form method="post" enctype="text/plain" action="http://127.0.0.1:{port}/v1/services/shipping">
<input name='{{"weight":3,"express":true,"note":"' value='"}}'></form>"""


class Sites:
    def __init__(self, suite) -> None:
        self.suite, self.browser = suite, suite.browser

    def named(self) -> str:
        """Under a name that leads to loopback the page is not given, and its script reads no model."""
        service = self.suite.service("parcel.json")
        self.browser.driver.get(f"http://{NAME}:{service.port}/")
        shown = self.browser.js("return document.documentElement.textContent")
        assert NAME in self.browser.js("return location.host") and "weight" not in shown and "loopback address" in shown, shown
        read = self.browser.driver.execute_async_script("""const done = arguments[0];
            Promise.all(["v1/model?whole=true", "openapi.json", "page/app.js"].map(async (path) => {
              const answer = await fetch("/" + path);
              return [path, answer.status, (await answer.text()).includes("weight")];
            })).then(done, (fault) => done(String(fault)));""")
        assert all(status == 421 and not is_told for _, status, is_told in read), read
        return ""

    def sent(self) -> str:
        """A form and a script of another site are refused, and nothing of them is recorded."""
        folder = self.suite.folder / "sites"
        service = self.suite.service("sites", HERE / "examples" / "parcel.json", "--journal", str(folder))
        site = served(FORM.format(port=service.port))
        try:
            self.browser.driver.get(f"http://{NAME}:{site.server_port}/")
            self.browser.driver.execute_async_script("""const [port, done] = arguments;
                fetch(`http://127.0.0.1:${port}/v1/services/shipping`, {method: "POST", mode: "no-cors", body: '{"weight":4,"express":true}'})
                    .then(() => done(), () => done())""", service.port)
            self.browser.js("document.forms[0].submit()")
            said = lambda: self.browser.js("return location.port === arguments[0] ? document.querySelector('pre')?.textContent : ''", str(service.port))
            answer = json.loads(self.browser.wait(said, "the answer to the form"))
        finally:
            site.shutdown()
            site.server_close()
        assert answer["status"] == 403 and "another site" in json.dumps(answer), answer
        own = service.send("/v1/services/shipping", "POST", '{"weight":5,"express":false}')
        assert own[0].status == 200, own[1]
        recorded = "".join(path.read_text() for path in folder.glob("*.jsonl"))
        assert '"weight":5' in recorded and '"weight":3' not in recorded and '"weight":4' not in recorded, recorded
        return ""


def served(text: str) -> http.server.ThreadingHTTPServer:
    """A site of one page, on a port that the system chooses."""
    class Page(http.server.BaseHTTPRequestHandler):
        def do_GET(self) -> None:  # noqa: N802
            self.send_response(200)
            self.send_header("Content-Type", "text/html")
            self.end_headers()
            self.wfile.write(text.encode())

        def log_message(self, *_: object) -> None:
            pass

    site = http.server.ThreadingHTTPServer(("127.0.0.1", 0), Page)
    threading.Thread(target=site.serve_forever, daemon=True).start()
    return site


def run(suite) -> None:
    sites = Sites(suite)
    suite.row("a name that leads to loopback", sites.named, "status of 421")
    suite.row("a form of another site", sites.sent, "status of 403", "status of 404")
