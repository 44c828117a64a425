#!/usr/bin/env python3
"""Writes LINES log lines of a KIND (short, plain, combined, tenth, hundredth, nginx, haproxy, iis, envoy) with a fixed seed:
generate.py KIND LINES > LOG. Of `tenth` and `hundredth`, which have combined lines, each tenth or hundredth line is cut in two.
No line holds a byte that a server would escape, so a peer may copy texts into JSON as they stand."""
import random
import sys

MONTHS = "Jan Feb Mar Apr May Jun Jul Aug Sep Oct Nov Dec".split()
AGENTS = (
    "Mozilla/5.0 (X11; Linux x86_64) AppleWebKit/537.36 (KHTML, like Gecko) Chrome/120.0.0.0 Safari/537.36",
    "Mozilla/5.0 (Windows NT 10.0; Win64; x64; rv:121.0) Gecko/20100101 Firefox/121.0",
    "curl/8.5.0",
    "-",
)
PATHS = ("/", "/index.html", "/api/v1/items", "/static/app.js", "/images/logo.png", "/search")
STATUSES = (200, 200, 200, 200, 301, 304, 404, 500)
pick = random.Random(20261130)


def address():
    return ".".join(str(pick.randrange(256)) for _ in range(4))


def count():
    return pick.randrange(10 ** pick.randrange(1, 8))


def second():
    return "%02d/%s/%d:%02d:%02d:%02d" % (
        pick.randrange(1, 29), pick.choice(MONTHS), pick.randrange(2000, 2027),
        pick.randrange(24), pick.randrange(60), pick.randrange(60))


def request():
    query = f"?id={pick.randrange(100000)}" if pick.random() < 0.4 else ""
    return f"{pick.choice(('GET', 'GET', 'POST'))} {pick.choice(PATHS)}{query} HTTP/1.1"


def referer():
    return "-" if pick.random() < 0.5 else "https://example.org" + pick.choice(PATHS)


def short():
    host = address() if pick.random() < 0.97 else "-"
    return f"{host} {pick.choice(STATUSES)} {count()}"


def user():
    return "-" if pick.random() < 0.9 else pick.choice(("alice", "bob"))


def plain():
    size = count() if pick.random() < 0.9 else 0
    return f"{address()} - {user()} {pick.choice(STATUSES)} {size or '-'}"


def end_of_combined(status, size):
    time = f"{second()} {pick.choice(('+0000', '-0700', '+0530'))}"
    return f'[{time}] "{request()}" {status} {size} "{referer()}" "{pick.choice(AGENTS)}"'


def combined():
    size = count() if pick.random() < 0.9 else 0
    return f"{address()} - {user()} " + end_of_combined(pick.choice(STATUSES), size or "-")


def nginx():
    return f"{address()} - {user()} " + end_of_combined(pick.choice(STATUSES), count())


def haproxy():
    times = "/".join(str(pick.randrange(-1, 500)) for _ in range(5))
    counts = "/".join(str(pick.randrange(20)) for _ in range(4)) + "/0"
    return (f"{address()}:{pick.randrange(1024, 65536)} [{second()}.{pick.randrange(1000):03}] http-in "
            f"static/srv{pick.randrange(1, 9)} {times} {pick.choice(STATUSES)} {count()} - - ---- {counts} 0/0 "
            f'{{example.org}} {{}} "{request()}"')


def cut_each(count, lines=iter(range(10**12))):
    line = combined()
    return line[:40] if next(lines) % count == count - 1 else line


def tenth():
    return cut_each(10)


def hundredth():
    return cut_each(100)


def day_and_clock(parted):
    return (f"{pick.randrange(2000, 2027)}-{pick.randrange(1, 13):02}-{pick.randrange(1, 29):02}{parted}"
            f"{pick.randrange(24):02}:{pick.randrange(60):02}:{pick.randrange(60):02}")


def iis():
    agent = pick.choice(AGENTS).replace(" ", "+")
    return (f"{day_and_clock(' ')} 10.0.0.{pick.randrange(9)} {pick.choice(('GET', 'GET', 'POST'))} {pick.choice(PATHS)} "
            f"{'-' if pick.random() < 0.6 else f'id={pick.randrange(100000)}'} 443 {user()} {address()} {agent} {referer()} "
            f"{pick.choice(STATUSES)} 0 0 {pick.randrange(3000)}\r")


def envoy():
    return (f'[{day_and_clock("T")}.{pick.randrange(1000):03}Z] "{pick.choice(("GET", "GET", "POST"))} {pick.choice(PATHS)} HTTP/1.1" '
            f'{pick.choice(STATUSES)} - {count()} {count()} {pick.randrange(3000)} {pick.randrange(3000)} "{address()}" '
            f'"{pick.choice(AGENTS)}" "{pick.randrange(16**12):012x}" "example.org" "{address()}:{pick.randrange(1024, 65536)}"')


KINDS = (short, plain, combined, tenth, hundredth, nginx, haproxy, iis, envoy)


def main():
    line = {kind.__name__: kind for kind in KINDS}[sys.argv[1]]
    left = int(sys.argv[2])
    while left > 0:
        some = min(left, 10000)
        sys.stdout.write("".join(line() + "\n" for _ in range(some)))
        left -= some


main()
