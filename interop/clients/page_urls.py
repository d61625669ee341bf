#!/usr/bin/python3
"""page_urls.py PORT BASE COUNT: the URLs of so many pages one after the other, as the publisher of BASE at PORT of this machine links them."""

import json
import sys
import urllib.parse
import urllib.request


class Stays(urllib.request.HTTPRedirectHandler):
    """The base is the proxy's, and the publisher itself is asked: so no redirect is followed."""

    def http_error_302(self, request, file, code, message, headers):  # type: ignore[no-untyped-def]
        return file


def main() -> None:
    port, base, count = sys.argv[1], sys.argv[2], int(sys.argv[3])
    opener = urllib.request.build_opener(Stays)

    def inner(url: str) -> str:
        return f"http://127.0.0.1:{port}/{url.split('/', 3)[3]}"

    url = opener.open(inner(f"{base}connections")).headers["Location"]
    for _ in range(count):
        print(url)
        url = json.load(opener.open(inner(url))).get("hydra:next")
        if not url:
            raise SystemExit("there are fewer pages")


main()
