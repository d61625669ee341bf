#!/usr/bin/python3
"""pages.py URL...: reads pages one after the other by aiohttp with its defaults, and prints the least milliseconds that eight of them took."""

import asyncio
import sys
import time

import aiohttp


async def main(urls: list[str]) -> None:
    times = []
    async with aiohttp.ClientSession(raise_for_status=True) as session:
        for first in range(0, len(urls), 8):
            begun = time.monotonic()
            for url in urls[first : first + 8]:
                async with session.get(url) as reply:
                    page = await reply.json(content_type="application/ld+json")
                    page["@graph"]
            times.append(time.monotonic() - begun)
    print(round(min(times) * 1000))


asyncio.run(main(sys.argv[1:]))
