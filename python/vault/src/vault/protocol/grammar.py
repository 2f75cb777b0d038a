"""The words of the protocol: their forms, their limits, and the numbers of the refusals that a client looks at. This is the one place of
them; what reads lines as bytes has the same forms by `in_bytes`.
"""

import re

CONTENT_BYTES = 1024
NOTE_BYTES = 64
LINE_BYTES = 4096
GREATEST = 2 ** 32 - 1
ITEMS = 8
NAMES = 7
# What a vault has at most: places right beneath one, places with the library, claims at once, drafts in a check-out, versions of a part, and bytes of
# all contents.
BENEATH = 64
PLACES = 4096
CLAIMS = 256
DRAFTS = 64
VERSIONS = 65535
WEIGHT = 16 << 20

NAME = re.compile(r"[a-z0-9_-]{1,32}")
PLACE = re.compile(r"/|(?:/%s){1,%d}" % (NAME.pattern, NAMES))
ITEM = re.compile(r"[rw]:(?:%s)" % PLACE.pattern)
NUMBER = re.compile(r"0|[1-9][0-9]{0,9}")
CLAIM = re.compile(r"[ch][1-9][0-9]{0,9}")
CHECKOUT = re.compile(r"c[1-9][0-9]{0,9}")
HOLD = re.compile(r"h[1-9][0-9]{0,9}")
CODE = re.compile(r"[0-9]{1,3}")
# Bytes as they are sent, in digits of either case, and as the server spells them.
CONTENT = re.compile(r"-|(?:[0-9a-fA-F]{2})+")
SPELLED = re.compile(r"-|(?:[0-9a-f]{2})+")

# Replies, without the word OK before them.
SHOWN = re.compile(r"claim (?P<claim>%s) (?P<owner>%s) (?:held|queued behind (?P<behind>%s))(?P<items>(?: %s){1,%d})" % (
    CLAIM.pattern, NAME.pattern, CLAIM.pattern, ITEM.pattern, ITEMS))
CLAIMS_LISTED = re.compile(r"claims (?P<count>[0-9]{1,3})(?P<claims>(?: %s)*)" % CLAIM.pattern)
NAMES_LISTED = re.compile(r"list (?P<count>[0-9]{1,5})(?P<names>(?: %s)*)" % NAME.pattern)
COUNTED = re.compile(r"versions (?P<count>[0-9]{1,10})")
BYTES_GIVEN = re.compile(r"(?P<kind>content|note) (?P<bytes>%s)" % SPELLED.pattern)

# Refusals: there is no such place; that is none for this; a claim covers the place above; the claim is gone, or another designer's, or
# queued; so many items; no such version or draft; a limit; the server is full, has no memory, or its disk failed.
UNKNOWN_COMMAND = 10
NO_PLACE = 20
IS_THERE = 21
NO_PART = 22
COVERED = 23
GONE = 30
ANOTHERS = 31
QUEUED = 32
TOO_MANY_ITEMS = 36
NO_VERSION = 40
LIMIT = 50
FULL = 80
NO_MEMORY = 81
BROKEN = 82


def in_bytes(form: "re.Pattern[str]") -> "re.Pattern[bytes]":
    """The same form for a line that isn't text yet."""
    return re.compile(form.pattern.encode("ascii"))


def under(place: str, above: str) -> bool:
    """Whether a place is another one or stands beneath it."""
    return above == "/" or place == above or place.startswith(above + "/")
