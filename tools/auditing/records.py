"""The files of a record, which `record` writes and the others read. A record is a folder:

    about       what was recorded: the words of the command, and the time of day when it began
    streams     what went through the relays, a line for each piece, in the order in which it came
    revisions   what etcd said of the keys of the service, a line for each change

Both `streams` and `revisions` are text. Each line begins with a time: microseconds since the record began, by one clock for both files.
The time of a piece is read after the piece has come and before it is passed on. So a frame reached the proxy after its time, and a packet
left the proxy before its time; a revision was made in etcd before its time. Bytes are in hex, `-` for none. In `streams`:

    TIME open C P ADDRESS     connection C, counted from 1, was accepted for proxy P from this address
    TIME > C HEX              the client sent these bytes
    TIME < C HEX              the proxy sent these bytes
    TIME end C WHO            the stream of this side ended; WHO is `client` or `proxy`
    TIME over                 the record was ended in order

In `revisions`:

    TIME from REV             a watch begins, for revision REV and all later ones; the first one says where the record begins
    TIME at REV               etcd was at revision REV when the record began: what comes up to it is older than the record
    TIME key REV KEY VALUE CREATED VERSION LEASE    the record begins with this key, which was put at revision REV
    TIME snapshot REV         the keys before this line are all that there were at revision REV
    TIME put REV KEY VALUE CREATED VERSION LEASE    KEY was put; CREATED, VERSION and LEASE are etcd's numbers
    TIME delete REV KEY       KEY was deleted, or its lease lapsed
    TIME said WORDS           the watch was cut off, or a member of etcd could not be reached, and so on
    TIME lost FROM TO         revisions from FROM up to TO were compacted before they were read: the record has a gap
    TIME over REV VERSION     the end: etcd was at revision REV, and the head of the service had this version (0: there is none)

A record that was cut off has no line `over`, and its last line may be half a line, which is left out.
"""
import os


def to_hex(some):
    return some.hex() or "-"


def from_hex(word):
    return b"" if word == "-" else bytes.fromhex(word)


class Fault(Exception):
    """This record cannot be read."""


class Log:
    """A file of such lines, which is written as it grows."""

    def __init__(self, path, now):
        self.file, self.now = open(path, "w", encoding="ascii", errors="backslashreplace", buffering=1 << 16), now

    def line(self, words):
        self.file.write(f"{self.now()} {words}\n")

    def flush(self):
        self.file.flush()

    def close(self):
        self.file.close()


def lines_of(folder, name):
    """The words of each whole line, with its time first."""
    path = os.path.join(folder, name)
    try:
        with open(path, encoding="ascii") as file:
            for number, line in enumerate(file, 1):
                if not line.endswith("\n"):
                    return
                words = line.split()
                if len(words) < 2 or not words[0].isdigit():
                    raise Fault(f"{path}: line {number} cannot be read")
                yield int(words[0]), words[1:]
    except FileNotFoundError as wrong:
        raise Fault(f"there is no {path}") from wrong
