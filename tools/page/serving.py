"""A server of the page's folder, on this machine alone."""
import contextlib
import functools
import http.server


class Handler(http.server.SimpleHTTPRequestHandler):
    """Serves a folder, the module with the kind that browsers ask for, and says nothing."""

    extensions_map = {**http.server.SimpleHTTPRequestHandler.extensions_map, ".wasm": "application/wasm"}

    def end_headers(self):
        self.send_header("Cache-Control", "no-store")
        super().end_headers()

    def copyfile(self, source, outputfile):
        # a browser that goes elsewhere reads no more
        with contextlib.suppress(ConnectionError):
            super().copyfile(source, outputfile)

    def log_message(self, *_):
        """Says nothing."""


def serve(folder, port):
    """Serves a folder until it is told to end."""
    with http.server.ThreadingHTTPServer(("127.0.0.1", port), functools.partial(Handler, directory=folder)) as server:
        print(f"http://127.0.0.1:{server.server_port}/", flush=True)
        server.serve_forever()
