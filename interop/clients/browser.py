#!/usr/bin/python3
"""Opens a page of this directory in chromium, and prints the report that the page posts to where it came from.

    browser.py PAGE [--query NAME=VALUE]... [--certificate FILE --key FILE --secure PORT] [--upgrade]

PAGE is the name of a file here. With a certificate the page is that of https://app.example, and https://lc.example is at the port `--secure` of
this machine. Then a last line says whether chromium warned of mixed content. `--upgrade` sends the page with
`Content-Security-Policy: upgrade-insecure-requests`. Every name but these two and `localhost` is unknown to the browser. Status 1: no report came.
"""

import argparse
import base64
import hashlib
import pathlib
import ssl
import subprocess
import sys
import tempfile
import threading
import urllib.parse
from http.server import BaseHTTPRequestHandler, ThreadingHTTPServer

HERE = pathlib.Path(__file__).resolve().parent
LIMIT = 90


class Origin(ThreadingHTTPServer):
    """Where the page comes from, and where its report goes."""

    def __init__(self, page: str, upgrades: bool) -> None:
        super().__init__(("127.0.0.1", 0), Handler)
        self.page = (HERE / page).read_bytes()
        self.upgrades = upgrades
        self.report = ""
        self.is_reported = threading.Event()

    def handle_error(self, request: object, client_address: object) -> None:
        """A browser that ends in mid-connection is no news."""


class Handler(BaseHTTPRequestHandler):
    server: Origin

    def log_message(self, format: str, *values: object) -> None:
        pass

    def do_GET(self) -> None:
        self.send_response(200 if self.path.startswith("/page?") else 404)
        self.send_header("Content-Type", "text/html; charset=utf-8")
        if self.server.upgrades:
            self.send_header("Content-Security-Policy", "upgrade-insecure-requests")
        self.end_headers()
        if self.path.startswith("/page?"):
            self.wfile.write(self.server.page)

    def do_POST(self) -> None:
        self.server.report = self.rfile.read(int(self.headers["Content-Length"])).decode()
        self.send_response(204)
        self.end_headers()
        self.server.is_reported.set()


def fingerprint(certificate: str) -> str:
    """The hash of the public key of a certificate, as chromium takes it."""
    key = subprocess.run(["openssl", "x509", "-in", certificate, "-noout", "-pubkey"], check=True, capture_output=True).stdout
    plain = subprocess.run(["openssl", "pkey", "-pubin", "-outform", "der"], input=key, check=True, capture_output=True).stdout
    return base64.b64encode(hashlib.sha256(plain).digest()).decode()


def main() -> int:
    parser = argparse.ArgumentParser(description=__doc__, formatter_class=argparse.RawDescriptionHelpFormatter)
    parser.add_argument("page")
    parser.add_argument("--query", action="append", default=[])
    parser.add_argument("--certificate")
    parser.add_argument("--key")
    parser.add_argument("--secure", type=int)
    parser.add_argument("--upgrade", action="store_true")
    words = parser.parse_args()

    origin = Origin(words.page, words.upgrade)
    port = origin.server_address[1]
    rules = ["MAP * ~NOTFOUND", "EXCLUDE localhost"]
    switches = []
    site = f"http://localhost:{port}"
    if words.certificate:
        context = ssl.SSLContext(ssl.PROTOCOL_TLS_SERVER)
        context.load_cert_chain(words.certificate, words.key)
        origin.socket = context.wrap_socket(origin.socket, server_side=True, do_handshake_on_connect=False)
        site = "https://app.example"
        rules = [f"MAP lc.example:443 127.0.0.1:{words.secure}", f"MAP app.example:443 127.0.0.1:{port}", *rules]
        switches = [f"--ignore-certificate-errors-spki-list={fingerprint(words.certificate)}"]
    threading.Thread(target=origin.serve_forever, daemon=True).start()

    query = urllib.parse.urlencode([(name, value) for name, _, value in (pair.partition("=") for pair in words.query)])
    with tempfile.TemporaryDirectory(ignore_cleanup_errors=True) as folder:
        command = ["chromium", "--headless=new", "--no-sandbox", "--disable-gpu", "--disable-dev-shm-usage", "--no-first-run"]
        command += ["--disable-background-networking", "--disable-component-update", "--disable-extensions", "--disable-sync"]
        command += [f"--user-data-dir={folder}", f"--host-resolver-rules={', '.join(rules)}", "--enable-logging=stderr", *switches]
        with open(f"{folder}/log", "w+", encoding="utf-8", errors="replace") as log:
            browser = subprocess.Popen([*command, f"{site}/page?{query}"], stdout=log, stderr=log, start_new_session=True)
            is_reported = origin.is_reported.wait(LIMIT)
            browser.terminate()
            try:
                browser.wait(20)
            except subprocess.TimeoutExpired:
                browser.kill()
                browser.wait()
            log.seek(0)
            said = log.read()
    if not is_reported:
        print(f"FAILED: no report within {LIMIT} seconds; chromium said: {said[-500:]!r}")
        return 1
    print(origin.report)
    if words.certificate:
        print("FAILED: chromium warns of mixed content" if "Mixed Content" in said else "ok: no warning of mixed content")
    return 0


sys.exit(main())
