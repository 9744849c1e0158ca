"""Writes an access log of so many lines, always the same: make_log.py N."""

import sys

PATHS = ("/", "/index.html", "/search?q=a b", '/say/"hello"', "/back\\slash", "/images/logo.png")
CODES = (200, 200, 200, 200, 304, 404, 500)


def line(i):
    method = ("GET", "GET", "POST")[i % 3]
    path, code = PATHS[i * 7 % len(PATHS)], CODES[i * 5 % len(CODES)]
    size, milliseconds = i * 7919 % 50021, i * 31 % 997
    address = f"10.0.{i % 4}.{i % 200}"
    second, minute, hour = i % 60, i // 60 % 60, i // 3600 % 24
    moment = f"27/Nov/2026:{hour:02}:{minute:02}:{second:02} +0000"
    return f'{address} - - [{moment}] "{method} {path} HTTP/1.1" {code} {size} {milliseconds}'


for number in range(int(sys.argv[1])):
    print(line(number))
