#!/usr/bin/env python3
"""Cases for `inspect`, the reader of Get-Notifications requests.

    python3 tools/request_cases.py stdin     the input, one request a line
    python3 tools/request_cases.py stdout    the output that the rules call for
    python3 tools/request_cases.py example   a short input for trying it out

Everything here follows docs/RULES.md (sections 9 and 11) and nothing else.
The file has four parts: an encoder, a model of the reader, the table of cases
and the printing. The table says for each case, by hand, what must come out.
Every run first checks that the model says the same, and that no two cases are
alike; so an expected output stands only where two sources agree on it.
"""

import io
import string
import sys
from collections import namedtuple
from itertools import chain, repeat

# ---------------------------------------------------------------- encoder


def number(value, length):
    return value.to_bytes(length, "big")


def attribute(tag, name, value):
    """An attribute; with an empty name, a further value."""
    return (bytes([tag]) + number(len(name), 2) + name
            + number(len(value), 2) + value)


def further(tag, value):
    return attribute(tag, b"", value)


def integers(name, *values):
    """An attribute of integers, its first value named, the others further."""
    names = chain([name], repeat(b""))
    return b"".join(attribute(0x21, n, number(v, 4)) for n, v in zip(names, values))


def ids(*values):
    return integers(b"notify-subscription-ids", *values)


def numbers(*values):
    return integers(b"notify-sequence-numbers", *values)


def charset(value, tag=0x47):
    return attribute(tag, b"attributes-charset", value)


def wait(value, tag=0x22):
    return attribute(tag, b"notify-wait", value)


def head(major=1, minor=1, operation=0x001C, request_id=1):
    return bytes([major, minor]) + number(operation, 2) + number(request_id, 4)


def request(*parts, **header):
    """A request whose group 0x01 begins with the parts; the end is added."""
    return head(**header) + b"\x01" + b"".join(parts) + b"\x03"


CHARSET = charset(b"utf-8")
LANGUAGE = attribute(0x48, b"attributes-natural-language", b"en")
URI = attribute(0x45, b"printer-uri", b"ipp://hub.example/p1")
USER = attribute(0x42, b"requesting-user-name", b"ann")
FRONT = CHARSET + LANGUAGE + URI
BASE = FRONT + ids(100)
MINIMAL = request(BASE)
assert len(MINIMAL) == 140 and MINIMAL[107] == 0x21     # section 14

# ------------------------------------------------------------------ model

KEYWORDS = {
    0x0400: "client-error-bad-request",
    0x040B: "client-error-attributes-or-values-not-supported",
    0x040D: "client-error-charset-not-supported",
    0x0501: "server-error-operation-not-supported",
    0x0503: "server-error-version-not-supported",
}

Item = namedtuple("Item", "kind first name value")
Request = namedtuple("Request", "version request_id wanted wait")


class Refused(Exception):
    """Carries the status of the step that failed."""


def need(condition, status=0x0400):
    if not condition:
        raise Refused(status)


def items_of(data):
    """Section 9.2, and condition 3 of section 9.5: the items before the end."""
    source = io.BytesIO(data)

    def take(length):
        part = source.read(length)
        need(len(part) == length)
        return part

    def counted():
        return take(int.from_bytes(take(2), "big"))

    row = []
    while (first := take(1)[0]) != 0x03:
        need(first != 0x00)
        if first < 0x10:
            row.append(Item("mark", first, None, None))
        else:
            name, value = counted(), counted()
            row.append(Item("attribute" if name else "further", first, name, value))
    need(source.read() == b"")
    for before, item in zip(row, row[1:]):
        need(not (before.kind == "mark" and item.kind == "further"))
    return row


def group_one(row):
    """Conditions 4 and 5: the attributes, each name with its (tag, value) pairs."""
    need(row and row[0].kind == "mark" and row[0].first == 0x01)
    marks = [place for place, item in enumerate(row) if item.kind == "mark"]
    need([row[place].first for place in marks].count(0x01) == 1)
    group = row[1:(marks + [len(row)])[1]]
    names = [item.name for item in group if item.kind == "attribute"]
    need(len(names) == len(set(names)))
    found = {}
    for item in group:
        if item.kind == "attribute":
            values = found[item.name] = []
        values.append((item.first, item.value))
    return names, found


def only_value(pairs, tag):
    need(len(pairs) == 1 and pairs[0][0] == tag)
    return pairs[0][1]


def positive_integers(pairs):
    need(all(tag == 0x21 and len(value) == 4 for tag, value in pairs))
    values = [int.from_bytes(value, "big", signed=True) for _, value in pairs]
    need(all(value >= 1 for value in values))
    return values


def read(data):
    """Steps 1 to 5 of section 9.4."""
    need(data[0] in (1, 2), 0x0503)
    need(data[2:4] == b"\x00\x1c", 0x0501)

    request_id = int.from_bytes(data[4:8], "big")
    need(1 <= request_id <= 0x7FFFFFFF)
    names, found = group_one(items_of(data[8:]))
    need(names[:2] == [b"attributes-charset", b"attributes-natural-language"])
    charset_value = only_value(found[b"attributes-charset"], 0x47)
    only_value(found[b"attributes-natural-language"], 0x48)
    need(b"printer-uri" in found)
    only_value(found[b"printer-uri"], 0x45)
    need(b"notify-subscription-ids" in found)
    wanted_ids = positive_integers(found[b"notify-subscription-ids"])
    need(len(wanted_ids) == len(set(wanted_ids)))
    lowest = positive_integers(found.get(b"notify-sequence-numbers", []))
    waiting = b"\x00"
    if b"notify-wait" in found:
        waiting = only_value(found[b"notify-wait"], 0x22)
    need(waiting in (b"\x00", b"\x01"))

    need(charset_value == b"utf-8", 0x040D)
    need(len(wanted_ids) <= 8, 0x040B)
    wanted = list(zip(wanted_ids, chain(lowest, repeat(1))))
    return Request((data[0], data[1]), request_id, wanted, waiting == b"\x01")


NOT_HEX = "not hexadecimal"
ODD = "odd number of digits"
DECLINED = "declined 41, a request has 8 to 16384 bytes"


def outcome(line):
    """What a line comes to: a Request, a status, words, or None if passed over."""
    text = line.strip(" ")
    if not text or line.startswith("#"):
        return None
    if not set(text) <= set(string.hexdigits):
        return NOT_HEX
    if len(text) % 2:
        return ODD
    data = bytes.fromhex(text)
    if not 8 <= len(data) <= 16384:
        return DECLINED
    try:
        return read(data)
    except Refused as refused:
        return refused.args[0]


def report(place, line):
    """The output for a line, as a list of lines."""
    result = outcome(line)
    if result is None:
        return []
    if isinstance(result, str):
        return [f"line {place}: {result}"]
    if isinstance(result, int):
        return [f"line {place}: status 0x{result:04X} {KEYWORDS[result]}"]
    return [
        f"line {place}: request",
        "  version %d.%d" % result.version,
        "  operation Get-Notifications",
        f"  request-id {result.request_id}",
        *("  subscription %d from number %d" % pair for pair in result.wanted),
        "  wait " + ("yes" if result.wait else "no"),
    ]


# ------------------------------------------------------------------ cases

CASES = []      # (words, line, expected outcome)


def good(words, data, wanted, waiting=False, version=(1, 1), request_id=1, shape=str):
    """A request that passes; shape may alter its line of digits."""
    expected = Request(version, request_id, wanted, waiting)
    CASES.append((words, shape(data.hex()), expected))


def bad(status, words, data):
    CASES.append((words, data.hex(), status))


def line(expected, words, text):
    CASES.append((words, text, expected))


ONE = [(100, 1)]        # what most good cases ask for
M = 0x7FFFFFFF
EIGHT = range(100, 108)
NINE = range(100, 109)


def rubbish(name, tag=0x44):
    return attribute(tag, name, b"rubbish")


def padded(length):
    """A request of that many bytes; its last attribute fills it up."""
    spare = length - len(request(BASE, attribute(0x30, b"x-pad", b"")))
    return request(BASE, attribute(0x30, b"x-pad", b"\x03" * spare))


# Good: the header.
good("the smallest request, 140 bytes", MINIMAL, ONE)
good("version 2.0", request(BASE, major=2, minor=0), ONE, version=(2, 0))
good("version 1.0", request(BASE, minor=0), ONE, version=(1, 0))
good("version 2.2", request(BASE, major=2, minor=2), ONE, version=(2, 2))
good("any minor version will do: 1.255", request(BASE, minor=255), ONE,
     version=(1, 255))
good("the largest request-id", request(BASE, request_id=M), ONE, request_id=2147483647)
good("a request-id of four different bytes", request(BASE, request_id=0x01020304), ONE,
     request_id=16909060)

# Good: ids, sequence numbers and notify-wait.
good("two ids, one sequence number: the second id starts at 1",
     request(FRONT, ids(100, 101), numbers(7)), [(100, 7), (101, 1)])
good("two ids, two sequence numbers",
     request(FRONT, ids(100, 101), numbers(1, 5)), [(100, 1), (101, 5)])
good("more sequence numbers than ids: the extras are unused",
     request(FRONT, ids(100, 101), numbers(3, 4, 5, 6)), [(100, 3), (101, 4)])
good("one id and ten sequence numbers",
     request(FRONT, ids(100), numbers(*range(21, 31))), [(100, 21)])
good("sequence numbers before the ids",
     request(FRONT, numbers(8, 9), ids(100, 101)), [(100, 8), (101, 9)])
good("sequence numbers may repeat",
     request(FRONT, ids(100, 101, 102), numbers(4, 4, 4)),
     [(100, 4), (101, 4), (102, 4)])
good("the largest sequence number",
     request(BASE, numbers(M)), [(100, 2147483647)])
good("eight ids, the most there may be", request(FRONT, ids(*EIGHT)),
     [(100, 1), (101, 1), (102, 1), (103, 1), (104, 1), (105, 1), (106, 1), (107, 1)])
good("eight ids with eight sequence numbers and one to spare",
     request(FRONT, ids(*EIGHT), numbers(*range(11, 20))),
     [(100, 11), (101, 12), (102, 13), (103, 14),
      (104, 15), (105, 16), (106, 17), (107, 18)])
good("ids out of order stay in the order of the request",
     request(FRONT, ids(9, 3, 6), numbers(2)), [(9, 2), (3, 1), (6, 1)])
good("the largest id", request(FRONT, ids(M)), [(2147483647, 1)])
good("the smallest id", request(FRONT, ids(1)), [(1, 1)])
good("an id that uses all four bytes", request(FRONT, ids(0x01020304)), [(16909060, 1)])
good("notify-wait true", request(BASE, wait(b"\x01")), ONE, waiting=True)
good("notify-wait false", request(BASE, wait(b"\x00")), ONE)

# Good: order, names and attributes that are passed over.
good("after the first two, the attributes in another order",
     request(CHARSET, LANGUAGE, wait(b"\x01"), numbers(2), ids(100), URI), [(100, 2)],
     waiting=True)
good("an unknown attribute between charset, language and the rest",
     request(CHARSET, LANGUAGE, USER, URI, ids(100)), ONE)
good("requesting-user-name, an unknown attribute", request(BASE, USER), ONE)
good("an unknown attribute with further values of other tags",
     request(BASE, USER, further(0x21, b"\x00"), further(0x44, b"bob"),
             further(0x22, b"yes")), ONE)
good("an unknown attribute with further values, and a known one behind it",
     request(FRONT, USER, further(0x21, number(7, 4)), ids(100)), ONE)
good("unknown attributes with the tags 0x10, 0x7F and 0xFF and empty values",
     request(BASE, attribute(0x10, b"a", b""), attribute(0x7F, b"b", b""),
             attribute(0xFF, b"c", b"")), ONE)
good("an unknown attribute whose further values are empty",
     request(BASE, USER, further(0x10, b""), further(0xFF, b"")), ONE)
good("an unknown attribute with a value of 300 bytes",
     request(BASE, attribute(0x30, b"x-long", b"z" * 300)), ONE)
good("an unknown attribute with a name of 259 bytes",
     request(BASE, attribute(0x30, b"n" * 259, b"")), ONE)
good("values that contain 0x03, 0x01 and 0x00",
     request(BASE, attribute(0x30, b"x-data", b"\x03\x01\x00\x03"),
             further(0x30, b"\x03")), ONE)
good("a length of 3 and a name that contains 0x03 and 0x01",
     request(BASE, attribute(0x30, b"\x03\x01\x03", b"abc")), ONE)
good("an id and a sequence number made of bytes 0x03 and 0x01",
     request(FRONT, ids(0x03030303), numbers(0x01030103)), [(50529027, 16974083)])
good("forty unknown attributes with forty names",
     request(BASE, *(attribute(0x44, b"x-%d" % n, b"v") for n in range(40))), ONE)
good("Notify-Wait differs in case and so is unknown",
     request(BASE, rubbish(b"Notify-Wait")), ONE)
good("names that differ by one byte are different: notify-wait and Notify-Wait",
     request(BASE, wait(b"\x01"), rubbish(b"Notify-Wait")), ONE, waiting=True)
good("a known name with a byte more or less is unknown",
     request(BASE, rubbish(b"notify-subscription-id"), rubbish(b"notify-wait\0")), ONE)
good("printer-uri is not looked into: an empty value",
     request(CHARSET, LANGUAGE, attribute(0x45, b"printer-uri", b""), ids(100)), ONE)
good("the natural language de",
     request(CHARSET, attribute(0x48, b"attributes-natural-language", b"de"), URI,
             ids(100)), ONE)
good("the natural language is not looked into: an empty value",
     request(CHARSET, attribute(0x48, b"attributes-natural-language", b""), URI,
             ids(100)), ONE)

# Good: other groups.
good("an empty group 0x02 at the end", request(BASE, b"\x02"), ONE)
good("every mark from 0x02 to 0x0F but 0x03, all groups empty",
     request(BASE, bytes([0x02, *range(0x04, 0x10)])), ONE)
good("groups 0x02, 0x0F and 0x06 in which names repeat",
     request(BASE, *(mark + rubbish(b"copies") + rubbish(b"copies")
                     for mark in (b"\x02", b"\x0f", b"\x06"))), ONE)
good("group 0x02 may occur twice", request(BASE, b"\x02", USER, b"\x02", USER), ONE)
good("a second notify-subscription-ids with rubbish, in group 0x06",
     request(BASE, b"\x06", rubbish(b"notify-subscription-ids"), further(0x10, b"")), ONE)
good("all six known names with rubbish, in group 0x02",
     request(BASE, b"\x02", rubbish(b"notify-wait"), rubbish(b"attributes-charset"),
             rubbish(b"notify-sequence-numbers"), rubbish(b"printer-uri"),
             rubbish(b"attributes-natural-language"),
             rubbish(b"notify-subscription-ids")), ONE)
good("notify-wait and sequence numbers in group 0x02 have no effect",
     request(BASE, b"\x02", wait(b"\x01"), numbers(9)), ONE)
good("one unknown name in two groups", request(BASE, USER, b"\x02", USER), ONE)

# Good: the shape of the line, and the longest request.
good("upper-case digits, with spaces at both ends", request(BASE, USER), ONE,
     shape=lambda digits: "   " + digits.upper() + "  ")
good("upper-case and lower-case digits in one line", request(BASE, wait(b"\x00")), ONE,
     shape=lambda digits: digits[:140].upper() + digits[140:])
good("exactly 16384 bytes", padded(16384), ONE)

# Step 1: the version.
bad(0x0503, "major version 0", request(BASE, major=0))
bad(0x0503, "major version 3", request(BASE, major=3))
bad(0x0503, "major version 255", request(BASE, major=255))
bad(0x0503, "major version 3 and a bad operation: the version comes first",
    request(BASE, major=3, operation=0x001B))
bad(0x0503, "major version 3 and nothing but the header", head(major=3))
bad(0x0503, "eight bytes of zero", bytes(8))

# Step 2: the operation.
bad(0x0501, "operation 0x001B", request(BASE, operation=0x001B))
bad(0x0501, "operation 0x001D", request(BASE, operation=0x001D))
bad(0x0501, "operation 0x0000", request(BASE, operation=0x0000))
bad(0x0501, "operation 0x011C: both bytes count", request(BASE, operation=0x011C))
bad(0x0501, "a bad operation, request-id 0 and no attributes: the operation comes first",
    head(operation=0x000B, request_id=0))

# Step 3, condition 1: the request-id.
bad(0x0400, "request-id 0", request(BASE, request_id=0))
bad(0x0400, "request-id 0x80000000", request(BASE, request_id=0x80000000))
bad(0x0400, "request-id 0xFFFFFFFF", request(BASE, request_id=0xFFFFFFFF))

# Conditions 2 and 3: cut requests. The places are those of section 14.
bad(0x0400, "only the header, 8 bytes", MINIMAL[:8])
bad(0x0400, "cut after the mark 0x01", MINIMAL[:9])
bad(0x0400, "cut after a tag", MINIMAL[:10])
bad(0x0400, "cut within a name length", MINIMAL[:11])
bad(0x0400, "cut after a name length", MINIMAL[:12])
bad(0x0400, "cut within a name", MINIMAL[:20])
bad(0x0400, "cut after a name", MINIMAL[:30])
bad(0x0400, "cut within a value length", MINIMAL[:134])
bad(0x0400, "cut after a value length", MINIMAL[:135])
bad(0x0400, "cut within a value", MINIMAL[:137])
bad(0x0400, "cut before the end item", MINIMAL[:139])
bad(0x0400, "cut after the mark 0x02", MINIMAL[:139] + b"\x02")
bad(0x0400, "cut within a value of group 0x02", request(BASE, b"\x02", USER)[:-2])
bad(0x0400, "cut within a further value", request(FRONT, ids(100, 101))[:-3])
bad(0x0400, "a value length one too large takes in the end item",
    request(BASE, b"\x44\x00\x01x\x00\x03ab"))
bad(0x0400, "a value length of 0xFFFF", request(BASE, b"\x44\x00\x01x\xff\xffab"))
bad(0x0400, "a name length of 0xFFFF", request(BASE, b"\x44\xff\xffx\x00\x00"))
bad(0x0400, "a byte after the end item", MINIMAL + b"\x00")
bad(0x0400, "two end items", MINIMAL + b"\x03")
bad(0x0400, "a whole group after the end item", MINIMAL + b"\x02" + USER + b"\x03")

# Condition 2: items that are ill-formed.
bad(0x0400, "an item that starts with 0x00", request(BASE, b"\x00"))
bad(0x0400, "0x00 where the tag of an attribute belongs",
    request(BASE, attribute(0x00, b"x", b"v")))
bad(0x0400, "0x00 in place of the end item", MINIMAL[:139] + b"\x00")
bad(0x0400, "an item that starts with 0x00 in group 0x02", request(BASE, b"\x02\x00"))
bad(0x0400, "a mark in place of the tag of an attribute",
    request(BASE, attribute(0x0F, b"x", b"v")))
bad(0x0400, "a further value straight after the mark 0x01",
    request(further(0x47, b"utf-8"), BASE))
bad(0x0400, "a further value straight after the mark 0x02",
    request(BASE, b"\x02", further(0x44, b"v")))
bad(0x0400, "a further value straight after a second mark 0x06",
    request(BASE, b"\x06", USER, b"\x06", further(0x44, b"v")))

# Condition 4: the group 0x01.
bad(0x0400, "an attribute as the first item", head() + BASE + b"\x03")
bad(0x0400, "a further value as the first item",
    head() + further(0x21, b"") + b"\x01" + BASE + b"\x03")
bad(0x0400, "the mark 0x02 as the first item", head() + b"\x02\x01" + BASE + b"\x03")
bad(0x0400, "the mark 0x02 in place of 0x01", head() + b"\x02" + BASE + b"\x03")
bad(0x0400, "the end as the first item", head() + b"\x03")
for mark in (0x04, 0x0F):
    bad(0x0400, "all is well but that the only group is 0x%02X" % mark,
        head() + bytes([mark]) + BASE + b"\x03")
bad(0x0400, "an empty group 0x01", head() + b"\x01\x03")
bad(0x0400, "the mark 0x01 twice, the attributes shared out",
    request(FRONT, b"\x01", ids(100)))
bad(0x0400, "the mark 0x01 twice, the second group empty", request(BASE, b"\x01"))
bad(0x0400, "the mark 0x01 twice, the first group empty", request(b"\x01", BASE))
bad(0x0400, "a second mark 0x01 after group 0x02",
    request(BASE, b"\x02", USER, b"\x01", attribute(0x44, b"x", b"v")))

# Condition 5: names that occur twice in group 0x01.
bad(0x0400, "an unknown name twice", request(BASE, USER, USER))
bad(0x0400, "an unknown name twice, tags and values different",
    request(CHARSET, LANGUAGE, USER, URI, ids(100), rubbish(b"requesting-user-name")))
bad(0x0400, "notify-wait twice", request(BASE, wait(b"\x00"), wait(b"\x00")))
bad(0x0400, "attributes-charset twice", request(BASE, CHARSET))
bad(0x0400, "notify-subscription-ids twice", request(BASE, ids(101)))
bad(0x0400, "forty unknown names, the last the same as the first",
    request(BASE, *(attribute(0x44, b"x-%d" % (n % 39), b"v") for n in range(40))))

# Conditions 6 to 8: charset, language and printer-uri.
bad(0x0400, "charset missing", request(LANGUAGE, URI, ids(100)))
bad(0x0400, "charset second", request(LANGUAGE, CHARSET, URI, ids(100)))
bad(0x0400, "an unknown attribute before charset", request(USER, BASE))
bad(0x0400, "charset with tag 0x48", request(charset(b"utf-8", 0x48), LANGUAGE, URI, ids(100)))
bad(0x0400, "charset with a further value",
    request(CHARSET, further(0x47, b"utf-8"), LANGUAGE, URI, ids(100)))
bad(0x0400, "language missing", request(CHARSET, URI, ids(100)))
bad(0x0400, "language third", request(CHARSET, URI, LANGUAGE, ids(100)))
bad(0x0400, "language with tag 0x47",
    request(CHARSET, attribute(0x47, b"attributes-natural-language", b"en"), URI, ids(100)))
bad(0x0400, "language with a further value",
    request(CHARSET, LANGUAGE, further(0x48, b"de"), URI, ids(100)))
bad(0x0400, "printer-uri missing", request(CHARSET, LANGUAGE, ids(100)))
bad(0x0400, "printer-uri only in group 0x02",
    request(CHARSET, LANGUAGE, ids(100), b"\x02", URI))
bad(0x0400, "Printer-URI is another name than printer-uri",
    request(CHARSET, LANGUAGE, attribute(0x45, b"Printer-URI", b"ipp://hub.example/p1"),
            ids(100)))
bad(0x0400, "printer-uri with tag 0x44",
    request(CHARSET, LANGUAGE, attribute(0x44, b"printer-uri", b"ipp://hub.example/p1"),
            ids(100)))
bad(0x0400, "printer-uri with a further value",
    request(FRONT, further(0x45, b"ipp://hub.example/p2"), ids(100)))

# Condition 9: the ids.
IDS = b"notify-subscription-ids"
bad(0x0400, "ids missing", request(FRONT))
bad(0x0400, "ids missing though there are sequence numbers", request(FRONT, numbers(1)))
bad(0x0400, "ids only in group 0x02", request(FRONT, b"\x02", ids(100)))
bad(0x0400, "ids with tag 0x23", request(FRONT, attribute(0x23, IDS, number(100, 4))))
bad(0x0400, "an id of 3 bytes", request(FRONT, attribute(0x21, IDS, number(100, 3))))
bad(0x0400, "an id of 5 bytes", request(FRONT, attribute(0x21, IDS, number(100, 5))))
bad(0x0400, "an id of 0 bytes", request(FRONT, attribute(0x21, IDS, b"")))
bad(0x0400, "id 0", request(FRONT, ids(0)))
bad(0x0400, "id 0x80000000", request(FRONT, ids(0x80000000)))
bad(0x0400, "id 0xFFFFFFFF", request(FRONT, ids(0xFFFFFFFF)))
bad(0x0400, "ids 5, 5", request(FRONT, ids(5, 5)))
bad(0x0400, "ids 5, 6, 5", request(FRONT, ids(5, 6, 5)))
bad(0x0400, "nine ids, one of them twice: bad before too many",
    request(FRONT, ids(*EIGHT, 103)))
bad(0x0400, "ten ids, the last two equal", request(FRONT, ids(*EIGHT, 200, 200)))
bad(0x0400, "two hundred ids, the last equal to the first",
    request(FRONT, ids(*range(1, 200), 1)))
bad(0x0400, "nine ids, the ninth 0", request(FRONT, ids(*EIGHT, 0)))
bad(0x0400, "a further id with tag 0x23", request(BASE, further(0x23, number(101, 4))))
bad(0x0400, "a further id of 2 bytes", request(BASE, further(0x21, number(101, 2))))
bad(0x0400, "a further id 0", request(FRONT, ids(100, 0)))

# Condition 10: the sequence numbers.
NUMBERS = b"notify-sequence-numbers"
bad(0x0400, "sequence number 0", request(BASE, numbers(0)))
bad(0x0400, "sequence number 0x80000000", request(BASE, numbers(0x80000000)))
bad(0x0400, "a sequence number of 2 bytes",
    request(BASE, attribute(0x21, NUMBERS, number(1, 2))))
bad(0x0400, "an empty sequence number", request(BASE, attribute(0x21, NUMBERS, b"")))
bad(0x0400, "sequence numbers with tag 0x22",
    request(BASE, attribute(0x22, NUMBERS, number(1, 4))))
bad(0x0400, "a further sequence number with another tag",
    request(FRONT, ids(100, 101), numbers(1), further(0x23, number(1, 4))))
bad(0x0400, "a bad sequence number beyond the ids", request(BASE, numbers(1, 0)))
bad(0x0400, "a bad tenth sequence number for one id",
    request(BASE, numbers(*range(1, 10), 0xFFFFFFFF)))

# Condition 11: notify-wait.
bad(0x0400, "notify-wait 0x02", request(BASE, wait(b"\x02")))
bad(0x0400, "notify-wait 0xFF", request(BASE, wait(b"\xff")))
bad(0x0400, "notify-wait of two bytes", request(BASE, wait(b"\x00\x01")))
bad(0x0400, "notify-wait empty", request(BASE, wait(b"")))
bad(0x0400, "notify-wait with tag 0x21", request(BASE, wait(b"\x01", 0x21)))
bad(0x0400, "notify-wait with a further value",
    request(BASE, wait(b"\x01"), further(0x22, b"\x01")))

# Step 3 comes before steps 4 and 5.
ASCII = charset(b"us-ascii")
bad(0x0400, "charset us-ascii and printer-uri missing", request(ASCII, LANGUAGE, ids(100)))
bad(0x0400, "charset us-ascii and id 0", request(ASCII, LANGUAGE, URI, ids(0)))
bad(0x0400, "charset us-ascii and no end item", request(ASCII, LANGUAGE, URI, ids(100))[:-1])
bad(0x0400, "nine ids and notify-wait 0x02", request(FRONT, ids(*NINE), wait(b"\x02")))

# Step 4: the charset.
bad(0x040D, "charset us-ascii", request(ASCII, LANGUAGE, URI, ids(100)))
bad(0x040D, "charset UTF-8 in upper case", request(charset(b"UTF-8"), LANGUAGE, URI, ids(100)))
bad(0x040D, "charset empty", request(charset(b""), LANGUAGE, URI, ids(100)))
bad(0x040D, "charset utf-8 with a trailing NUL",
    request(charset(b"utf-8\0"), LANGUAGE, URI, ids(100)))
bad(0x040D, "charset utf-, a byte short", request(charset(b"utf-"), LANGUAGE, URI, ids(100)))
bad(0x040D, "charset us-ascii and nine ids: the charset comes first",
    request(ASCII, LANGUAGE, URI, ids(*NINE)))

# Step 5: the number of ids.
bad(0x040B, "nine ids", request(FRONT, ids(*NINE)))
bad(0x040B, "twelve ids", request(FRONT, ids(*range(1, 13))))
bad(0x040B, "two hundred ids", request(FRONT, ids(*range(1, 201))))
bad(0x040B, "nine ids with nine sequence numbers",
    request(FRONT, ids(*NINE), numbers(*range(1, 10))))

# Lines that hold no request.
line(NOT_HEX, "words", "good morning")
line(NOT_HEX, "a g among the digits", MINIMAL.hex()[:100] + "g" + MINIMAL.hex()[101:])
line(NOT_HEX, "a space among the digits", "01 01 00 1c 00 00 00 01 03")
line(NOT_HEX, "digits with 0x in front", "0x" + MINIMAL.hex())
line(NOT_HEX, "an odd number of characters, one of them no digit",
     "0101001c00000001z")
line(ODD, "one digit", "0")
line(ODD, "the smallest request without its last digit", MINIMAL.hex()[:-1])
line(ODD, "one digit too many, and a space behind it", MINIMAL.hex() + "0 ")
line(DECLINED, "one byte", "03")
line(DECLINED, "7 bytes", head()[:7].hex())
line(DECLINED, "7 bytes with major version 3: the length comes first",
     head(major=3)[:7].hex())
line(DECLINED, "16385 bytes", padded(16385).hex())
line(DECLINED, "16385 bytes with major version 3", (b"\x03" + padded(16385)[1:]).hex())

# --------------------------------------------------------------- printing

INTRODUCTION = """\
# Requests for the reader; each comment says what the line below it shows.

# only spaces: like the empty line above, passed over but counted
   
"""

EXAMPLE_INTRODUCTION = """\
# Requests in hexadecimal, one a line.
# Blank lines and lines that begin with # are passed over.

"""

EXAMPLE = [
    ("The smallest request: subscription 100, from its first notice on.",
     MINIMAL.hex()),
    ("Two subscriptions; of the second only the numbers from 5 on.",
     request(FRONT, ids(100, 101), numbers(1, 5), request_id=17).hex()),
    ("The client offers to wait, and gives a name that the reader does not need.",
     request(CHARSET, LANGUAGE, USER, URI, ids(100), wait(b"\x01"),
             major=2, minor=0, request_id=18).hex()),
    ("Refused: the same subscription twice.",
     request(FRONT, ids(5, 5), request_id=19).hex()),
    ("Refused: another operation, Print-Job.",
     request(BASE, operation=0x0002, request_id=20).hex()),
    ("No request at all.", "good morning"),
]


def written(table):
    return "".join(f"# {words}\n{text}\n" for words, text in table)


def check():
    for words, text, expected in CASES:
        assert outcome(text) == expected, (words, outcome(text), expected)
    assert len({words for words, _, _ in CASES}) == len(CASES)
    assert len({text for _, text, _ in CASES}) == len(CASES)
    # A cut anywhere behind the header is a fault, and so is a byte more.
    for short in range(8, len(MINIMAL)):
        assert outcome(MINIMAL[:short].hex()) == 0x0400
    for byte in range(256):
        assert outcome((MINIMAL + bytes([byte])).hex()) == 0x0400


def main(arguments):
    check()
    text = INTRODUCTION + written((words, text) for words, text, _ in CASES)
    if arguments == ["stdin"]:
        sys.stdout.write(text)
    elif arguments == ["stdout"]:
        for place, text_line in enumerate(text.splitlines(), 1):
            for printed in report(place, text_line):
                print(printed)
    elif arguments == ["example"]:
        sys.stdout.write(EXAMPLE_INTRODUCTION + written(EXAMPLE))
    else:
        sys.exit(__doc__)


if __name__ == "__main__":
    main(sys.argv[1:])
