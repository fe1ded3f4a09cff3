"""The cases of crates/cases/data, as files on which the program can be called. crates/cases/README.md has their format."""

import hashlib
import os
import struct

SHORT = 2**32


def digest(data):
    return hashlib.sha256(data).digest()


def sealed(version, kind, body):
    """A frame with this body, whatever it holds."""
    data = b"VF" + bytes([version, kind]) + struct.pack("<I", len(body)) + body
    return data + digest(data)


def stand(version, start, at):
    """Where a record stands: its count in version 1, its distance from the piece's beginning in version 2."""
    return struct.pack("<Q", at) if version == 1 else struct.pack("<I", (at - start) % SHORT)


def records(version, start, words):
    """The records that these words spell."""
    found = []
    while words:
        kind, at, taken = words[0], stand(version, start, int(words[1])), 3
        if kind == "edge":
            found.append(b"\1" + at + struct.pack("<BQ", int(words[2]), int(words[3])))
            taken = 4
        elif kind == "word":
            found.append(b"\2" + at + struct.pack("<BI", 1, int(words[2], 16)))
        elif kind == "bell":
            found.append(b"\2" + at + struct.pack("<BI", 2, int(words[2])))
        elif kind == "note":
            found.append(b"\3" + at + struct.pack("<Q", int(words[2])))
        else:
            found.append(b"\2" + at + struct.pack("<BI", 0, 0))
            taken = 2
        words = words[taken:]
    return found


def harts_of(image):
    """How many harts an image has, as far as its first line tells."""
    word = image.split(b"\n", 1)[0].removeprefix(b"harts ")
    return int(word) if word.isdigit() else 1


def frame(version, image, words):
    """The frame of an image's guest that the words of a case spell: an opening or a piece."""
    guest = digest(image) + bytes([harts_of(image) % 256])
    if words[0] == "opening":
        term, parent, *base = map(int, words[1:])
        return sealed(version, 2, guest + struct.pack(f"<II{len(base)}Q", term, parent, *base))
    term, hart, place, start, end = map(int, words[1:6])
    told = records(version, start, words[6:])
    body = guest + struct.pack("<BIIQQH", hart, term, place, start, end, len(told))
    return sealed(version, 1, body + b"".join(told))


def turned(data, at):
    return data[:at] + bytes([data[at] ^ 0x80]) + data[at + 1 :]


def stream(version, image, lines):
    """The stream that the lines of a case spell, a part each."""
    data, last = b"", 0
    for line in lines:
        words = line.split(" ")
        if words[0] == "cut":
            data = data[: last + int(words[1])]
        elif words[0] == "turn":
            data = turned(data, last + int(words[1]))
        else:
            last = len(data)
            data += bytes.fromhex(words[1]) if words[0] == "bytes" else frame(version, image, words)
    return data


def packets(lines):
    """What the lines say, a packet each: `+` and `-` stand for themselves."""
    return b"".join(line.encode() if line in ("+", "-") else b"$%s#%02x" % (line.encode(), sum(line.encode()) % 256) for line in lines)


def blocks(text):
    """The headings of a case file, each with the lines of its content."""
    found = []
    for line in text.split("\n"):
        if line.startswith("  "):
            found[-1][1].append(line[2:])
        elif line and not line.startswith("#"):
            found.append((line, []))
    return found


def joined(lines):
    return "".join(line + "\n" for line in lines).encode()


class Case:
    """What the program is asked, the files that it finds, and what it must write."""

    def __init__(self, file, name):
        self.file, self.name = file, name
        self.words, self.files, self.threads = [], {}, False
        self.status, self.out, self.err = 0, b"", b""
        self.made, self.makes = None, None
        self.on_disk = True  # whether files can show it, in one call
        self.is_told = True  # whether it says what must be written

    def harts(self):
        image = self.files.get(self.words[1]) if len(self.words) > 1 else None
        return harts_of(image) if image else 1

    def makes_a_file(self):
        """The name of the file that this call makes, if it does."""
        place = {"run": 4, "join": 2}.get(self.words[0] if self.words else "")
        return self.words[place] if place and place < len(self.words) else None

    def lay(self, folder):
        """Writes its files into an empty folder. Where no file can be made, a folder has its name."""
        for name, data in self.files.items():
            with open(os.path.join(folder, name), "wb") as file:
                file.write(data)
        name = self.makes_a_file()
        if name and self.made is None and name not in self.files:
            os.mkdir(os.path.join(folder, name))


def cases_of(path, version=1):
    """The cases of a file. Frames are spelled in this version."""
    with open(path, encoding="utf-8", newline="") as file:
        text = file.read()
    texts, found, last = {}, [], None
    for heading, content in blocks(text):
        verb, _, rest = heading.partition(" ")
        for two in ("makes frames", "makes packets"):
            if heading.startswith(two + " "):
                verb, rest = two, heading.removeprefix(two + " ")
        name, given = rest, joined(content)
        if verb in ("file", "makes", "out", "err") and "= " in rest:
            name, _, source = rest.partition("= ")
            given = texts[source]
        case = found[-1] if found else None
        if verb == "text":
            texts[rest] = joined(content)
        elif verb == "bytes":
            texts[rest] = bytes.fromhex("".join(content))
        elif verb == "case":
            found.append(Case(os.path.basename(path), rest))
        elif verb == "words":
            case.words += rest.split(" ")
        elif verb == "word":
            case.words.append(rest)
        elif verb == "spelled":
            case.words.append(bytes.fromhex(rest).decode())
        elif verb == "threads":
            case.threads = True
        elif verb == "file":
            last = name.rstrip()
            case.files[last] = given
        elif verb == "frames":
            last, image = rest.split(" of ")
            case.files[last] = stream(version, texts[image], content)
        elif verb == "front":
            case.files[last] = case.files[last][: int(rest)]
        elif verb == "turned":
            case.files[last] = turned(case.files[last], int(rest))
        elif verb == "makes":
            case.made, case.makes = name.rstrip(), given
        elif verb == "makes frames":
            case.made, image = rest.split(" of ")
            case.makes = stream(version, texts[image], content)
        elif verb == "makes-any":
            case.made = rest
        elif verb == "status":
            case.status = int(rest)
        elif verb == "out":
            case.out += given
        elif verb == "err":
            case.err += given
        elif verb == "packets":
            case.files[rest] = packets(content)
        elif verb == "makes packets":
            case.out, case.on_disk = packets(content), False
        elif verb in ("failing", "room", "holds", "each"):
            case.on_disk = False
        elif verb not in ("absent", "unread"):
            raise ValueError(f"{path}: {heading}")
    return found
