#!/usr/bin/env python3
"""Signs each message of a file of captured messages for its receiver (TSIG, RFC 8945), for the bench.

It does so with hmac-sha256 and one key, each for a request with a MAC of its own. The octets are the same for the same
input.

It reads the file from its standard input, and writes the messages signed to its standard output. It needs
PYTHONPATH=tools.

exit status: 0, all is written; 1, a file couldn't be read or written; 2, the command line is wrong; 130, it was
interrupted.
"""

from __future__ import annotations

import base64
import hashlib
import sys

from dnssec_check_tools.capturing.frames import framed, frames_of
from dnssec_check_tools.command import parser_of, run
from dnssec_check_tools.wire import name_octets, with_tsig

KEY = name_octets("bench.")
SECRET = hashlib.sha256(b"key").digest()


def main(words: list[str]) -> int:
    parser = parser_of(__doc__)
    parser.add_argument("moment", metavar="MOMENT", type=int, help="when the messages are signed, in seconds of 1970")
    parser.add_argument("keys", metavar="KEYS", help="the file of keys to be written, as check reads it")
    parser.add_argument("macs", metavar="MACS", help="the file of the requests' MACs to be written, as check reads it")
    options = parser.parse_args(words)
    macs = []
    for number, message in enumerate(frames_of(sys.stdin.buffer.read())[0]):
        macs.append(hashlib.sha256(b"request %d" % number).digest())
        sys.stdout.buffer.write(framed([with_tsig(message, KEY, SECRET, options.moment, macs[-1])]))
    with open(options.keys, "w", encoding="ascii") as keys:
        keys.write(f"bench. {base64.b64encode(SECRET).decode()}\n")
    with open(options.macs, "w", encoding="ascii") as file:
        file.writelines(mac.hex() + "\n" for mac in macs)
    return 0


if __name__ == "__main__":
    run(main)
