"""A page of another origin that tries to use the desk: it posts, embeds a script, and reads."""

from __future__ import annotations

import threading
from http.server import BaseHTTPRequestHandler, ThreadingHTTPServer

PAGE = """<!doctype html><title>other</title><body><script>
const address = "ADDRESS";
(async () => {
  const read = [];
  await fetch(address + "api/ask", { method: "POST", mode: "no-cors", headers: { "Content-Type": "text/plain" }, body: '{"text": "CHECK"}' }).catch(() => {});
  for (const path of ["", "api/history"]) await fetch(address + path, { method: path ? "POST" : "GET" }).then((it) => it.text()).catch((error) => read.push(error.name));
  const script = document.createElement("script");
  script.src = address + "desk.js";
  const over = new Promise((done) => { script.onerror = done; script.onload = done; });
  document.body.append(script);
  await over;
  document.body.dataset.read = read.join(" ");
  document.title = "done";
})();
</script>"""


class OtherSite:
    """Serves the page on a port of its own."""

    def __init__(self, address: str):
        page = PAGE.replace("ADDRESS", address).encode()

        class Handler(BaseHTTPRequestHandler):
            def do_GET(self) -> None:
                self.send_response(200)
                self.send_header("Content-Type", "text/html")
                self.end_headers()
                self.wfile.write(page)

            def log_message(self, *_: object) -> None:
                pass

        self._server = ThreadingHTTPServer(("127.0.0.1", 0), Handler)

    def __enter__(self) -> str:
        threading.Thread(target=self._server.serve_forever, daemon=True).start()
        return f"http://127.0.0.1:{self._server.server_port}/"

    def __exit__(self, *_: object) -> None:
        self._server.shutdown()
        self._server.server_close()
