"""An object's file of format 2, as docs/formats.md has it: what its header is, and its tag."""

import hmac

MAGIC = b"OTO2"


def number(value):
    return value.to_bytes(4, "little")


def header(length):
    return MAGIC + number(length)


def tag_of(key, name, content):
    return hmac.digest(key, name + b"\0" + number(len(content)) + content, "sha256")
