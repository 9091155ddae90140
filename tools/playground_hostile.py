"""Requests that are none of the playground's own, for `.ci/playground`: each must be refused, or its connection closed."""

from __future__ import annotations

import json
import random
from typing import Any

TWO = 'classes = ["L", "H"]\nbelow = [["L", "H"]]\n'
LAMP = "var h : H;\nvar l : L;\nif h then l := 1 else l := 0\n"


def request(method: str, path: str, host: str, body: bytes = b"", *more: str) -> bytes:
    """The bytes of a request."""
    lines = [f"{method} {path} HTTP/1.1", f"Host: {host}", *more]
    if body and not any(line.lower().startswith("content-length") for line in more):
        lines.append(f"Content-Length: {len(body)}")
    return "\r\n".join([*lines, "", ""]).encode("latin-1") + body


def hostile_fields(chance: random.Random) -> bytes:
    """A body of JSON that no request takes."""
    text = {"text": LAMP, "lattice": TWO, "store": "", "budget": 9, "class": "L"}
    bad: "list[dict[str, Any]]" = [
        {"class": name} for name in ("--help", "-h", "../L", "L --trace", "L\n", "", "L" * 33, "Ä", "0", "L;id", None)]
    bad += [{"budget": value} for value in (-1, 1_000_001, 1.5, "9", True, None, [9], 10 ** 20, {"a": 1})]
    bad += [{"text": value} for value in (None, 7, ["x"], {"path": "/etc/passwd"}, "\ud800")]
    bad += [{"path": "/etc/passwd"}, {"--out": "x"}, {"__proto__": 1}, {"vsi": "/bin/sh"}, {"profile": "--strict"}]
    return json.dumps({**text, **chance.choice(bad)}).encode()


def hostile_body(chance: random.Random) -> bytes:
    """A body that is no JSON of a request, in one of many ways."""
    return chance.choice([
        *(hostile_fields(chance) for _ in range(3)), b"", b"{", b"[]", b"null", b"7", b'"text"',
        b"[" * 100_000, b'{"text":' * 5_000, b'{"budget":' + b"9" * 100_000 + b"}", b'{"text":NaN}', b"\xff\xfe",
        b'{"text":"\xff"}', b"text=x&lattice=y", b"<x/>", bytes(chance.randrange(256) for _ in range(200)),
        json.dumps({"exercise": chance.choice(["../01-first-text", "01-first-text/wrong", "--help", "", 1])}).encode(),
        json.dumps({"subject": chance.choice(["--help", "-V", "999", "25 --json", "language\n", 25])}).encode()])


def hostile_path(chance: random.Random) -> str:
    """A path that the server doesn't have."""
    return chance.choice([
        "/../../etc/passwd", "/..%2f..%2fetc/passwd", "//etc/passwd", "/serve", "/playground/serve", "/./serve",
        "/.git/config", "/api/", "/api", "/api/check/", "/api/../serve", "/api/--help", "/api/build", "/api/check%00",
        "/%00", "/index.html/..", "/exercises/01-first-text/solution/answer.vsi", "/report/", "/style.css?x",
        "/main.js%2f", "/\\..\\serve", "*", "/" + "a" * 3000, "http://127.0.0.1/", "/api/" + "check/../" * 20 + "check",
        "/" + "../" * chance.randrange(1, 40) + "etc/passwd"])


def hostile(chance: random.Random, host: str) -> bytes:
    """One request that the server must not answer with success."""
    kind = chance.randrange(12)
    json_type = "Content-Type: application/json"
    name = chance.choice(["view", "run", "compare", "together", "monitor", "leak", "check", "conform", "explain"])
    good = json.dumps({"text": LAMP, "lattice": TWO}).encode()
    if kind < 2:
        return request(chance.choice(["GET", "POST", "HEAD"]), hostile_path(chance), host, b"{}", json_type)
    if kind < 6:
        return request("POST", "/api/view" if kind < 4 else f"/api/{name}", host, hostile_body(chance), json_type)
    if kind == 6:
        method = chance.choice(["PUT", "DELETE", "PATCH", "OPTIONS", "TRACE", "CONNECT", "FOO", "get", "PROPFIND"])
        return request(method, chance.choice(["/", "/api/check", "/report"]), host, b"{}", json_type)
    if kind == 7:
        evil = chance.choice(["evil.example", "", f"{host}@evil.example", f"{host}.evil.example", "127.0.0.1:1",
                              "localhost:80", f"{host}\r\nHost: evil.example", "0.0.0.0", f"x, {host}"])
        return request("POST", "/api/check", evil, good, json_type)
    if kind == 8:
        origin = chance.choice(["http://evil.example", "null", "https://127.0.0.1", f"http://{host}.evil.example",
                                "file://"])
        return request("POST", "/api/check", host, good, json_type, f"Origin: {origin}")
    if kind == 9:
        length = chance.choice(["1048577", "99999999999", "-1", "1e3", "0x10", "", "5\r\nContent-Length: 6", "+5"])
        return request("POST", "/api/check", host, good, json_type, f"Content-Length: {length}")
    if kind == 10:
        kind_line = chance.choice(["Content-Type: text/plain", "X: y",
                                   "Content-Type: application/x-www-form-urlencoded"])
        return request("POST", chance.choice(["/api/check", "/report"]), host, b"text=a&text=b&lattice=c", kind_line)
    return chance.choice([
        b"\x16\x03\x01\x02\x00\x01\x00\x01\xfc\x03\x03", b"GET /\r\n\r\n", b"GET / HTTP/9.9\r\n\r\n", b"\r\n\r\n",
        b"\x00" * 500, b"GET / HTTP/1.1\r\n\r\n",
        request("POST", "/api/check", host, b"", "Transfer-Encoding: chunked") + b"0\r\n\r\n",
        b"GET / HTTP/1.1\r\n" + b"A: b\r\n" * 300 + b"\r\n", b"GET / HTTP/1.1\r\nA: " + b"b" * 70_000 + b"\r\n\r\n",
        b"GET " + b"/a" * 40_000 + b" HTTP/1.1\r\n\r\n", b"GET / HTTP/1.1\nHost: evil\n\n"])
