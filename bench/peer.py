#!/usr/bin/env python3
"""Reads log lines of a KIND (plain, combined, nginx, haproxy) by python's `re` and writes logfmt's JSON: peer.py KIND < LOG.
Texts are copied as they stand, which is right for the lines of generate.py."""
import re
import sys

MONTHS = {name: "%02d" % (number + 1)
          for number, name in enumerate("Jan Feb Mar Apr May Jun Jul Aug Sep Oct Nov Dec".split())}
TIME = r"\[(\d\d)/(\w\w\w)/(\d{4}):(\d\d:\d\d:\d\d) ([-+]\d\d)(\d\d)\]"
ENDS = r' "([^"]*)" "([^"]*)"'
PLAIN = re.compile(r"(\S+) (\S+) (.+) (\d{3}|-) (\d+|-)")
COMBINED = re.compile(r"(\S+) (\S+) (.+) " + TIME + r' "([^"]*)" (\d{3}|-) (\d+|-)' + ENDS)
NGINX = re.compile(r"(\S+) - (.+) " + TIME + r' "([^"]*)" (\d{3}) (\d+)' + ENDS)
NUMBER = r"(-?\d+)"
HAPROXY = re.compile(
    r"(\S+):(\d+) \[(\d\d)/(\w\w\w)/(\d{4}):(\d\d:\d\d:\d\d\.\d{3})\] (\S+) (\S+)/(\S+) "
    + "/".join([NUMBER] * 5) + " " + NUMBER + r" (\d+) (\S+) (\S+) (....) "
    + "/".join([r"(\d+)"] * 4) + r"/([\d+]+) (\d+)/(\d+) \{([^}]*)\} \{([^}]*)\} " + r'"([^"]*)"')


def text(field):
    return "null" if field == "-" else f'"{field}"'


def number(field):
    return "null" if field == "-" else field


def moment(day, month, year, clock, hours, minutes):
    return f'"{year}-{MONTHS[month]}-{day}T{clock}.000{hours}:{minutes}"'


def plain(parts):
    host, name, user, status, size = parts
    return text(host), text(name), text(user), number(status), "0" if size == "-" else size


def combined(parts):
    host, name, user, *time, request, status, size, referer, agent = parts
    return (text(host), text(name), text(user), moment(*time), text(request), number(status),
            "0" if size == "-" else size, text(referer), text(agent))


def nginx(parts):
    host, user, *time, request, status, size, referer, agent = parts
    return (text(host), text(user), moment(*time), text(request), str(int(status)), size, text(referer), text(agent))


def haproxy(parts):
    host, port, day, month, year, clock, front, back, server, *rest = parts
    numbers, (request_cookie, cookie, ends), more = rest[:7], rest[7:10], rest[10:]
    return (text(host), port, f'"{year}-{MONTHS[month]}-{day}T{clock}+00:00"', text(front), text(back), text(server),
            *numbers, text(request_cookie), text(cookie), f'"{ends}"', *more[:4], f'"{more[4]}"', *more[5:7],
            f'"{more[7]}"', f'"{more[8]}"', f'"{more[9]}"')


def main():
    kinds = {"plain": (PLAIN, plain), "combined": (COMBINED, combined), "nginx": (NGINX, nginx), "haproxy": (HAPROXY, haproxy)}
    pattern, record = kinds[sys.argv[1]]
    for line in sys.stdin:
        found = pattern.fullmatch(line, 0, len(line) - 1)
        sys.stdout.write("[" + ",".join(record(found.groups())) + "]\n")


main()
