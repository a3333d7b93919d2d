"""What tries a board: a front before a service, which passes on what that answers, or fails as it is told to."""
from __future__ import annotations

import http.server
import json
import threading
import time
from typing import Any, Optional

from culprit_source import Away, Service


class Front(http.server.ThreadingHTTPServer):
    """Stands before the service at a URL. `fault` is what it does in place of passing on: None, a status that it
    answers with a page in HTML, or seconds that it takes longer. While `gate` isn't set, all wait. In its answers it
    puts other `names` for some. `asked` has the paths that it was asked for."""

    daemon_threads = True

    def __init__(self, url: str) -> None:
        self.service = Service(url)
        self.fault: Optional[float] = None
        self.gate = threading.Event()
        self.gate.set()
        self.asked: list[str] = []
        self.names: dict[str, str] = {}
        super().__init__(("127.0.0.1", 0), Passing)
        self.url = f"http://127.0.0.1:{self.server_address[1]}"
        threading.Thread(target=self.serve_forever, daemon=True).start()

    def handle_error(self, request: Any, client_address: Any) -> None:
        """Says nothing of who didn't wait for an answer."""

    def close(self) -> None:
        """Ends it."""
        self.shutdown()
        self.server_close()

    def answer(self, path: str) -> tuple[int, bytes]:
        """The status and the body at a path."""
        status, body = self.service.ask(path)
        for name, other in self.names.items():
            body = body.replace(json.dumps(name).encode(), json.dumps(other, ensure_ascii=False).encode())
        return status, body


class Passing(http.server.BaseHTTPRequestHandler):
    """The answers of a front."""

    server: Front
    protocol_version = "HTTP/1.1"

    def do_GET(self) -> None:
        """Passes a request on."""
        self.server.asked.append(self.path)
        self.server.gate.wait()
        fault = self.server.fault
        if fault is not None and fault < 100:
            time.sleep(fault)
        if fault is not None and fault >= 100:
            status, body = int(fault), b"<html><script>alert(1)</script></html>"
        else:
            try:
                status, body = self.server.answer(self.path)
            except Away:
                self.close_connection = True
                return
        self.send_response(status)
        self.send_header("Content-Length", str(len(body)))
        self.end_headers()
        self.wfile.write(body)

    def log_message(self, format: str, *args: Any) -> None:
        """Says nothing of each request."""
