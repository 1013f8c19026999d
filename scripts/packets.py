"""What a client of the service sends and is sent."""
import os
import struct
import subprocess
import sys

GREETING = "esb-profile-1"


def number(n):
    return struct.pack("<I", n)


def bare(text):
    data = text.encode()
    return number(len(data)) + data


def spell(value):
    if isinstance(value, bool):
        return b"\x01" + bytes([value])
    if isinstance(value, int):
        return b"\x02" + number(value)
    if isinstance(value, str):
        return b"\x03" + bare(value)
    if isinstance(value, bytes):
        return b"\x04" + number(len(value)) + value
    if isinstance(value, list):
        return b"\x05" + number(len(value)) + b"".join(spell(item) for item in value)
    pairs = sorted(value.items(), key=lambda pair: pair[0].encode())
    return b"\x06" + number(len(pairs)) + b"".join(bare(key) + spell(item) for key, item in pairs)


def frame(word, value):
    body = number(word) + spell(value)
    return number(len(body)) + body


def message(text):
    return {"column": 0, "file": "", "length": 0, "line": 0, "text": text}


def result(*texts):
    """What a build is answered that shows no files and says these."""
    return {"errors": [message(text) for text in texts], "outputFiles": []}


def talk(program, folder, requests):
    """What the program answers to these requests, with the ids 0, 1, 2 and so on, and the most memory that it had, in bytes."""
    words = [program, "service", "--serial"]
    child = subprocess.Popen(words, stdin=subprocess.PIPE, stdout=subprocess.PIPE, cwd=folder)
    child.stdin.write(b"".join(frame(2 * number, request) for number, request in enumerate(requests)))
    child.stdin.close()
    said = child.stdout.read()
    _, status, used = os.wait4(child.pid, 0)
    if os.waitstatus_to_exitcode(status) != 0:
        sys.exit(f"the program ended with status {os.waitstatus_to_exitcode(status)}")
    greeting = bare(GREETING)
    if not said.startswith(greeting):
        sys.exit("no greeting")
    return said[len(greeting):], used.ru_maxrss * 1024


def replies(*values):
    """The packets that answer requests with the ids 0, 1, 2 and so on by these."""
    return b"".join(frame(2 * number + 1, value) for number, value in enumerate(values))


def value_at(data, at):
    """The value that is spelled from a place on, and the place behind it."""
    kind, at = data[at], at + 1
    if kind == 0:
        return None, at
    if kind == 1:
        return data[at] == 1, at + 1
    count, at = int.from_bytes(data[at : at + 4], "little"), at + 4
    if kind == 2:
        return count, at
    if kind in (3, 4):
        part = data[at : at + count]
        return part.decode() if kind == 3 else part, at + count
    if kind == 5:
        items = []
        for _ in range(count):
            item, at = value_at(data, at)
            items.append(item)
        return items, at
    pairs = {}
    for _ in range(count):
        length = int.from_bytes(data[at : at + 4], "little")
        key, at = data[at + 4 : at + 4 + length].decode(), at + 4 + length
        pairs[key], at = value_at(data, at)
    return pairs, at


def read(data):
    """The value that all of these bytes spell."""
    value, at = value_at(data, 0)
    if at != len(data):
        sys.exit("bytes behind a value")
    return value
