"""What the tools of the kit share: manifests with the lines of their keys, and images. Python's standard library alone,
with tomllib (3.11)."""

import bisect
import difflib
import os
import re
import shutil
import struct
import subprocess
import sys
import tempfile
import tomllib

RAM = 0x80000000
KEYS = {  # the listed keys of each table, with the ranges of versions 1 and 2
    "top": "version ram_kib tables upper leaf spill lookaside quantum module hart".split(),
    "module": "name image at perm words wx heap heap_words stack stack_words gates returns".split(),
    "later": "on_fault seal input input_at input_words input_perm".split(),  # of modules, in version 2
    "input": "input input_at input_words input_perm".split(),
    "gate": ["entry", "from"],
    "hart": ["module", "entry"],
    "pins": ["text", "rodata", "data"],  # of modules, in a description alone
}
REQUIRED = {"top": ["version", "ram_kib", "module", "hart"], "gate": ["entry", "from"], "hart": ["module"]}
CHOICES = {
    "tables": ["segments", "multilevel", "packed"],
    "perm": ["r", "rw", "rx"],
    "wx": ["rw", "rx"],
    "on_fault": ["return", "kill"],
    "input_perm": ["r", "rw"],
}
RANGES = {  # (least, greatest in version 1, greatest in version 2)
    "version": (1, 2, 2),
    "ram_kib": (64, 16384, 65536),
    "upper": (0, 1024, 4096),
    "leaf": (0, 65536, 262144),
    "spill": (0, 262144, 1048576),
    "quantum": (1, 1000000, 1000000),
    "heap_words": (1, 4194304, 16777216),
    "stack_words": (1, 1048576, 1048576),
    "input_words": (1, 16777216, 16777216),
}
LENGTHS = {  # of arrays, likewise
    "module": (1, 15, 63),
    "hart": (1, 4, 4),
    "gates": (0, 256, 256),
    "returns": (0, 256, 256),
    "from": (1, 15, 63),
    "words": (1, 65536, 65536),
}
ADDRESSES = ["at", "heap", "stack", "input_at", "text", "rodata", "data"]


def stop(tool, text, status=1):
    """Ends with one line."""
    print(f"{tool}: {text}", file=sys.stderr)
    sys.exit(status)


def options(tool, usage, arguments):
    """--help shows the usage and ends with 0; other words count as its caller says."""
    if any(word in ("--help", "-h") for word in arguments):
        print(usage.strip())
        sys.exit(0)


def usage_of(usage):
    print(usage.strip())
    sys.exit(2)


def meant(word, words):
    """The end of a message about a word that isn't among these."""
    near = difflib.get_close_matches(word, words, 1, 0.6)
    return f"; did you mean {near[0]}?" if near else ""


class Places:
    """The line of each key and element of a text that tomllib has read, by its path."""

    def __init__(self, text):
        self.text, self.at, self.line = text, 0, 1
        self.lines = {(): 1}
        self.counts = {}
        table = ()
        while self.skip("\n"):
            if self.text.startswith("[[", self.at):
                table = self.header(2)
            elif self.text[self.at] == "[":
                table = self.header(1)
            else:
                self.pair(table)

    def step(self, count=1):
        self.line += self.text.count("\n", self.at, self.at + count)
        self.at += count

    def skip(self, more=""):
        """To the next character that is no blank and in no comment; whether there is one."""
        while self.at < len(self.text):
            character = self.text[self.at]
            if character == "#":
                end = self.text.find("\n", self.at)
                self.step((len(self.text) if end < 0 else end) - self.at)
            elif character in " \t\r\ufeff" + more:
                self.step()
            else:
                return True
        return False

    def key(self):
        parts = []
        while True:
            self.skip()
            if self.text[self.at] in "\"'":
                parts.append(self.string())
            else:
                match = re.compile(r"[A-Za-z0-9_-]+").match(self.text, self.at)
                parts.append(match.group())
                self.step(len(match.group()))
            self.skip()
            if self.text[self.at] != ".":
                return tuple(parts)
            self.step()

    def string(self):
        quote = self.text[self.at]
        quotes = quote * 3 if self.text.startswith(quote * 3, self.at) else quote
        start = self.at
        self.step(len(quotes))
        while not self.text.startswith(quotes, self.at):
            self.step(2 if quote == '"' and self.text[self.at] == "\\" else 1)
        self.step(len(quotes))
        while len(quotes) == 3 and self.text.startswith(quote, self.at):  # quotes before the closing ones
            self.step()
        return tomllib.loads("x = " + self.text[start : self.at])["x"]

    def header(self, brackets):
        line = self.line
        self.step(brackets)
        path = ()
        parts = self.key()
        for number, part in enumerate(parts):
            path += (part,)
            if number + 1 == len(parts) and brackets == 2:
                self.counts[path] = self.counts.get(path, -1) + 1
            if path in self.counts:
                path += (self.counts[path],)
        self.step(brackets)
        self.lines[path] = line
        if brackets == 2:
            self.lines.setdefault(path[:-1], line)
        return path

    def pair(self, table):
        line = self.line
        path = table + self.key()
        self.lines[path] = line
        self.step()  # =
        self.value(path)

    def value(self, path):
        self.skip()
        first = self.text[self.at]
        if first in "\"'":
            self.string()
        elif first == "[":
            self.step()
            number = 0
            while self.skip("\n") and self.text[self.at] != "]":
                self.lines[path + (number,)] = self.line
                self.value(path + (number,))
                number += 1
                self.skip("\n")
                if self.text[self.at] == ",":
                    self.step()
            self.step()
        elif first == "{":
            self.step()
            while self.skip("\n") and self.text[self.at] != "}":
                self.pair(path)
                self.skip("\n")
                if self.text[self.at] == ",":
                    self.step()
            self.step()
        else:
            self.step(len(re.compile(r"[^,\]}#\n]*").match(self.text, self.at).group()))


class Refused(Exception):
    """A text that tomllib doesn't read, with the line where it says."""

    def __init__(self, text):
        super().__init__(text)
        match = re.search(r"\(at line (\d+)", text)
        self.line = int(match.group(1)) if match else None


class Fault:
    """What is wrong with a manifest: the number that its refusal has, where, and what to write."""

    def __init__(self, number, place, key, line, text):
        self.number, self.place, self.key, self.line, self.text = number, place, key, line, text


def is_int(value):
    return isinstance(value, int) and not isinstance(value, bool)


class Manifest:
    """A manifest, or a description of one (NAME.in.toml): as kit/place takes it, addresses may be left out there."""

    def __init__(self, name, described=False):
        self.name, self.described = name, described
        with open(name, "rb") as file:
            data = file.read()
        try:
            self.text = data.decode("utf-8-sig")
            self.tables = tomllib.loads(self.text)
        except (tomllib.TOMLDecodeError, UnicodeDecodeError) as error:
            raise Refused(str(error)) from None
        self.rows = self.text.split("\n")
        self.lines = Places(self.text.replace("\r\n", "\n")).lines
        self.version = self.tables.get("version")
        modules, harts = self.tables.get("module"), self.tables.get("hart")
        self.modules = modules if isinstance(modules, list) and all(isinstance(m, dict) for m in modules) else []
        self.harts = harts if isinstance(harts, list) and all(isinstance(h, dict) for h in harts) else []
        self.images = {}

    def line(self, *path):
        """Where a key stands, or the nearest table around it."""
        while path and path not in self.lines:
            path = path[:-1]
        return self.lines.get(path, 1)

    def row(self, line):
        return self.rows[line - 1].strip() if line and line <= len(self.rows) else ""

    def module_name(self, number):
        """Of domain `number`, from 1."""
        if 1 <= number <= len(self.modules) and isinstance(self.modules[number - 1].get("name"), str):
            return self.modules[number - 1]["name"]
        return f"module {number}"

    def domain(self, name):
        return next((n + 1 for n, m in enumerate(self.modules) if m.get("name") == name), 0)

    def image_name(self, number):
        return self.modules[number - 1].get("image")

    def image(self, number):
        """The image of domain `number`, or None where it has none or can't be read."""
        name = self.image_name(number)
        if not isinstance(name, str):
            return None
        if name not in self.images:
            try:
                self.images[name] = Image(name)
            except OSError:
                self.images[name] = None
        return self.images[name]

    def input_file(self, number):
        """What is wrong with the file that domain `number` has as its input, or "", and how many bytes it has."""
        name, said = self.modules[number - 1]["input"], self.said("module", number - 1)
        if os.path.isfile(name):
            return "", os.path.getsize(name)
        what = "is no file" if os.path.exists(name) else "isn't there"
        return f"{name}, the input of {said}, {what}", 0

    def input_room(self, number):
        """The bytes that an input may have, in words."""
        room = max(self.input_area(number)[1] - 4, 0)
        return f"the input area of {self.module_name(number)} has room for {room}", room

    def input_area(self, number):
        """The address of a module's input area and its bytes, or None."""
        module = self.modules[number - 1]
        if is_int(module.get("input_at")) and is_int(module.get("input_words")):
            return module["input_at"], 4 * module["input_words"]
        return None

    def ram_end(self):
        return RAM + 1024 * (self.tables["ram_kib"] if is_int(self.tables.get("ram_kib")) else 64)

    def said(self, kind, number=0):
        """How a table is called in a message."""
        if kind == "module":
            return f"module {number + 1} ({self.module_name(number + 1)})"
        return f"hart {number}" if kind == "hart" else "the manifest"

    # What the program judges without images: faults 2 to 8.

    def faults(self):
        found = []
        self.judge_table(found, "top", (), self.tables, "manifest", "the manifest")
        for number, module in enumerate(self.modules):
            place = f"module.{number + 1}"
            self.judge_table(found, "module", ("module", number), module, place, self.said("module", number))
            self.judge_module(found, number, module, place)
        for number, hart in enumerate(self.harts):
            place = f"hart.{number + 1}"
            self.judge_table(found, "hart", ("hart", number), hart, place, f"hart {number}")
        self.judge_names(found)
        return found

    def judge_table(self, found, kind, path, table, place, said, key_of=None):
        listed = list(KEYS[kind])
        if kind == "module" and self.version != 1:
            listed += KEYS["later"]
        if kind == "module" and self.described:
            listed += KEYS["pins"]
        for key in table:
            if key in listed:
                continue
            line = self.line(*path, key)
            if kind == "module" and key in KEYS["later"]:
                text = f"`{key}` is a key of version 2: write version = 2 in line {self.line('version')}"
            elif kind == "module" and key in KEYS["pins"]:
                text = f"`{key}` is a key of a description alone (NAME.in.toml, from which make makes the manifest)"
            else:
                later = KEYS["later"] if kind == "module" else []
                near = meant(key, listed) or meant(key, later).replace("?", ", a key of version 2?")
                text = f"`{key}` is no key of {said}{near} (the keys: {' '.join(listed)})"
            found.append(Fault(2, place, key_of, line, text))
        for key in listed:
            self.judge_key(found, kind, path, table, place, said, key, key_of)

    def judge_key(self, found, kind, path, table, place, said, key, key_of):
        line = self.line(*path, key)
        if key not in table:
            if key in self.required(kind, table):
                found.append(Fault(3, place, key_of or key, line, f"{said} lacks the key `{key}`: {self.wants(key)}"))
            return
        value = table[key]
        number = self.wrong(kind, key, value)
        if number:
            text = f"`{key}` of {said} is {self.shown(value)}, and has to be {self.wants(key, kind)}"
            if key in ("hart", "module") and kind == "top" and isinstance(value, dict):
                text = f"write [[{key}]], with two brackets on each side: [{key}] is one table, and these are many"
            found.append(Fault(number, place, key_of or key, line, text))
        elif key == "gates":
            for gate, inner in enumerate(value):
                self.judge_table(found, "gate", path + ("gates", gate), inner, place,
                                 f"gate {gate + 1} of {said}", "gates")

    def required(self, kind, table):
        if kind == "top" and self.described:
            return ["version", "module", "hart"]
        if kind != "module":
            return REQUIRED[kind]
        keys = ["name"]
        if self.described:
            keys += ["heap_words"] if "heap" in table else []
            return keys + (["input"] if any(key in table for key in KEYS["input"]) else [])
        inline = [key for key in ("at", "perm", "words") if key in table]
        if "image" not in table:
            keys += ["at", "perm", "words"] if inline else ["image"]
        for pair in (("heap", "heap_words"), ("stack", "stack_words")):
            if any(key in table for key in pair):
                keys += pair
        if any(key in table for key in KEYS["input"]):
            keys += ["input", "input_at", "input_words"]
        return keys

    def wrong(self, kind, key, value):
        """0, or the fault of a value: 4 for its type, 5 for its range."""
        top = 1 if self.version == 1 else 2
        if key == "module" and kind == "hart" or key == "name":
            good = isinstance(value, str) and (key != "name" or re.fullmatch("[a-z0-9_]{1,32}", value))
            return 0 if good else 5 if isinstance(value, str) else 4
        if key in LENGTHS:
            if not isinstance(value, list):
                return 4
            inner = {"module": dict, "hart": dict, "gates": dict, "from": str, "words": int}.get(key, (str, int))
            if not all(isinstance(each, inner) and not isinstance(each, bool) for each in value):
                return 4
            if not LENGTHS[key][0] <= len(value) <= LENGTHS[key][top]:
                return 5
            if key == "words":
                return 0 if all(0 <= each < 2**32 for each in value) else 5
            return next((5 for each in value if key == "returns" and self.wrong(kind, "entry", each)), 0)
        if key in CHOICES:
            return 0 if value in CHOICES[key] else 5 if isinstance(value, str) else 4
        if key in ("image", "input"):
            good = isinstance(value, str) and 1 <= len(value.encode()) <= 255 and not value.startswith("-")
            return 0 if good else 5 if isinstance(value, str) else 4
        if key == "entry":
            if isinstance(value, str):
                return 0 if 1 <= len(value.encode()) <= 255 else 5
            return 4 if not is_int(value) else 0 if 0 <= value < 2**32 else 5
        if key == "seal":
            return 0 if isinstance(value, bool) else 4
        if not is_int(value):
            return 4
        if key == "lookaside":
            return 0 if value in (8, 32, 64) else 5
        if key in ADDRESSES:
            return 0 if 0 <= value < 2**32 and value % 4 == 0 else 5
        if key == "ram_kib" and value % 4:
            return 5
        return 0 if RANGES[key][0] <= value <= RANGES[key][top] else 5

    def wants(self, key, kind=None):
        """What a key's value has to be."""
        top = 1 if self.version == 1 else 2
        if key in ("module", "hart") and kind != "hart":
            return f"{LENGTHS[key][0]} to {LENGTHS[key][top]} tables [[{key}]]"
        if key == "name":
            return "1 to 32 of a to z, 0 to 9 and _"
        if key == "module":
            return "a module's name in quotes"
        if key == "gates":
            return 'at most 256 tables as { entry = "NAME", from = ["MODULE"] }'
        if key == "returns":
            return 'at most 256 entries, as ["mondrix_return"]'
        if key in LENGTHS:
            what = {"from": "names of modules", "words": "integers 0 to 4294967295"}[key]
            return f"an array of {LENGTHS[key][0]} to {LENGTHS[key][top]} {what}"
        if key in CHOICES:
            return " or ".join(f'"{choice}"' for choice in CHOICES[key])
        if key in ("image", "input"):
            return "a file name in quotes, of 1 to 255 bytes, that doesn't begin with -"
        if key == "entry":
            return "a symbol of the image in quotes, of 1 to 255 bytes, or an address"
        if key == "seal":
            return "true or false"
        if key == "lookaside":
            return "8, 32 or 64"
        if key in ADDRESSES:
            return "an address, a multiple of 4"
        least, *most = RANGES[key]
        return f"{least} to {most[top - 1]}" + (", a multiple of 4" if key == "ram_kib" else "")

    @staticmethod
    def shown(value):
        if isinstance(value, dict):
            return "a table"
        if isinstance(value, list):
            return f"an array of {len(value)}"
        return str(value).lower() if isinstance(value, bool) else f'"{value}"' if isinstance(value, str) else str(value)

    def judge_module(self, found, number, module, place):
        said = self.said("module", number)
        if "image" in module:
            for key in ("at", "perm", "words"):
                if key in module:
                    found.append(Fault(6, place, "image", self.line("module", number, key),
                                       f"{said} has `image` beside `{key}`: it has an image, or at, perm and words"))
        elif "wx" in module:
            found.append(Fault(6, place, "wx", self.line("module", number, "wx"), f"{said} has `wx` without `image`"))

    def judge_names(self, found):
        names = [module.get("name") for module in self.modules]
        for number, name in enumerate(names):
            if name is not None and name in names[:number]:
                found.append(Fault(7, f"module.{number + 1}", "name", self.line("module", number, "name"),
                                   f"module {names.index(name) + 1} is {name} already"))
        known = [name for name in names if isinstance(name, str)]
        for number, module in enumerate(self.modules):
            gates = module.get("gates")
            for gate, inner in enumerate(gates if isinstance(gates, list) else []):
                callers = inner.get("from") if isinstance(inner, dict) else None
                for caller in callers if isinstance(callers, list) else []:
                    if caller == names[number] or caller not in names:
                        text = f"`from` of gate {gate + 1} of {self.said('module', number)} names {caller}, which is "
                        text += "the module itself" if caller == names[number] else \
                            "no module" + meant(str(caller), known)
                        found.append(Fault(8, f"module.{number + 1}", "gates",
                                           self.line("module", number, "gates", gate, "from"), text))
        for number, hart in enumerate(self.harts):
            name = hart.get("module")
            if isinstance(name, str) and name not in names:
                found.append(Fault(8, f"hart.{number + 1}", "module", self.line("hart", number, "module"),
                                   f"hart {number} begins in {name}, which is no module{meant(name, known)}"))

    # Areas and gates, of a manifest that is judged good.

    def areas(self, number):
        """The areas of domain `number` in the order in which they are judged: low, high, what, key."""
        module, name, found = self.modules[number - 1], self.module_name(number), []
        image = self.image(number)
        if image:
            for place, segment in enumerate(image.segments):
                found.append((segment.low, segment.high,
                              f"segment {place} ({segment.flags}) of {self.image_name(number)}", "image"))
        elif is_int(module.get("at")) and isinstance(module.get("words"), list):
            found.append((module["at"], module["at"] + 4 * len(module["words"]), f"the words of {name}", "at"))
        if is_int(module.get("heap")) and is_int(module.get("heap_words")):
            found.append((module["heap"], module["heap"] + 4 * module["heap_words"], f"the heap area of {name}",
                          "heap"))
        stack = self.stack(number)
        if stack:
            found.append((stack[0], stack[0] + stack[1] * len(self.harts),
                          f"the stack area of {name} ({stack[1] // 4} words for each hart)", "stack"))
        area = self.input_area(number)
        if area:
            found.append((area[0], sum(area), f"the input area of {name}", "input_at"))
        return found

    def stack(self, number):
        """The lowest address of a module's stacks and the bytes of each, or None."""
        module = self.modules[number - 1]
        if is_int(module.get("stack")) and is_int(module.get("stack_words")):
            return module["stack"], 4 * module["stack_words"]
        return None

    def guard(self, number):
        """The bytes of the guard at the low end of each of a module's stacks (guard.c), or 0."""
        stack, image = self.stack(number), self.image(number)
        return min(stack[1] // 16 // 4 * 4, 1024) if stack and image and "__module_stack" in image.absolute else 0

    def holder(self, address):
        """The module in one of whose areas an address lies, and that area; or 0 and None."""
        for number in range(1, len(self.modules) + 1):
            for area in self.areas(number):
                if area[0] <= address < area[1]:
                    return number, area
        return 0, None

    def gates(self, number):
        """The gates of a module as (address or None, entry, callers, place)."""
        image = self.image(number)
        for place, gate in enumerate(self.modules[number - 1].get("gates", [])):
            entry = gate["entry"]
            address = entry if is_int(entry) else image.symbols.get(entry) if image else None
            yield address, entry, gate["from"], place


class Segment:
    def __init__(self, offset, low, file_bytes, bytes_, flags):
        self.offset, self.low, self.file_bytes, self.bytes = offset, low, file_bytes, bytes_
        self.high = (low + bytes_ + 3) // 4 * 4
        self.flags = "".join(letter for bit, letter in ((4, "R"), (2, "W"), (1, "E")) if flags & bit)
        self.is_code = bool(flags & 1)


class Image:
    """An ELF file of 32 bits: its loaded segments, symbols and gates. `detail` says what refuses it, or is 0."""

    def __init__(self, name):
        with open(name, "rb") as file:
            self.data = file.read()
        self.name, self.segments, self.symbols, self.functions, self.objects = name, [], {}, [], []
        self.absolute, self.sections, self.undefined = {}, {}, set()
        self.detail = self.read_segments()
        if not self.detail:
            self.read_sections()
            self.functions.sort()
            self.objects.sort()

    def read_segments(self):
        data = self.data
        if len(data) < 52:
            return 1
        if data[:4] != b"\x7fELF":
            return 2
        if data[4:6] != b"\x01\x01":
            return 3
        kind, machine, _, self.entry, headers, self.section_at = struct.unpack_from("<HHIIII", data, 16)
        size, count, self.section_size, self.section_count = struct.unpack_from("<HHHH", data, 42)
        if kind != 2:
            return 4
        if machine != 243:
            return 5
        if count and (size != 32 or headers + 32 * count > len(data)):
            return 6
        for number in range(count):
            kind, offset, low, _, file_bytes, bytes_, flags = struct.unpack_from("<7I", data, headers + 32 * number)
            if kind == 1 and bytes_:
                self.segments.append(Segment(offset, low, file_bytes, bytes_, flags))
                segment = self.segments[-1]
                for detail, wrong in ((7, len(self.segments) > 16),
                                      (8, file_bytes and offset + file_bytes > len(data)),
                                      (9, file_bytes > bytes_), (10, low % 4)):
                    if wrong:
                        segment.wrong = True
                        return detail
        return 0

    def read_sections(self):
        if not self.section_count or self.section_size != 40 or \
                self.section_at + 40 * self.section_count > len(self.data):
            return
        rows = [struct.unpack_from("<10I", self.data, self.section_at + 40 * n) for n in range(self.section_count)]
        names = rows[min(struct.unpack_from("<H", self.data, 50)[0], len(rows) - 1)]
        for row in rows:
            self.sections[self.text(names, row[0])] = (row[3], row[3] + row[5], row)
        table = next((row for row in rows if row[1] == 2), None)
        if table is None or table[6] >= len(rows):
            return
        for at in range(table[4], table[4] + table[5] - 15, 16):
            name, value, size, info, _, section = struct.unpack_from("<IIIBBH", self.data, at)
            name = self.text(rows[table[6]], name)
            if not section:
                self.undefined.add(name)
                continue
            self.symbols.setdefault(name, value)
            if section == 0xFFF1:
                self.absolute.setdefault(name, value)
            elif info & 15 == 2:
                self.functions.append((value, size, name))
            elif info & 15 == 1:
                self.objects.append((value, size, name))

    def text(self, row, at):
        end = self.data.find(b"\0", row[4] + at)
        return self.data[row[4] + at : end].decode("utf-8", "replace")

    def word(self, address):
        """A word of the file at an address, or None."""
        for segment in self.segments:
            if segment.low <= address <= segment.low + segment.file_bytes - 4:
                return struct.unpack_from("<I", self.data, segment.offset + address - segment.low)[0]
        return None

    def own_gates(self):
        """The entries that MONDRIX_GATE made, by name."""
        low, high, _ = self.sections.get(".gates", (0, 0, None))
        return {name: value for value, _, name in self.functions if low <= value < high}

    def is_code(self, address):
        return any(segment.is_code and segment.low <= address < segment.high for segment in self.segments)

    def function(self, address):
        """The function that holds an address: its first address, size and name; or None."""
        best = None
        for value, size, name in self.functions:
            if value <= address and (address < value + size or size == 0):
                best = (value, size, name)
        return best

    def near(self, address):
        """The function or variable at an address, and how far behind its first byte; or nothing."""
        best = None
        for value, size, name in self.objects + self.functions:
            if value <= address < value + size + 16 and (best is None or value > best[0]):
                best = (value, name)
        if best is None:
            return ""
        return best[1] + (f" + {address - best[0]}" if address > best[0] else "")


def tool(name):
    """A program of binutils or LLVM, or None."""
    cross = os.environ.get("CROSS") or "riscv64-unknown-elf-"
    return next((each for each in (cross + name, "llvm-" + name) if shutil.which(each)), None)


def lines_of(image, addresses):
    """The function and line of each address, with those that it is inlined in, as one text each."""
    found = dict.fromkeys(addresses, "")
    program = tool("addr2line")
    for address in found:
        near = image.near(address)
        found[address] = near
        if not program:
            continue
        said = subprocess.run([program, "-f", "-i", "-p", "-s", "-e", image.name, hex(address)], capture_output=True,
                              text=True, check=False).stdout
        rows = [re.sub(r" \(discriminator \d+\)", "", row).strip() for row in said.splitlines()]
        if rows and not rows[0].startswith("??"):
            found[address] = ", ".join(rows).replace(" at ??:?", "").replace(" at ??:0", "")
    return found


class Frame:
    """A call through a gate: where it returns to, in which domain, and what the machine gives back there."""

    def __init__(self, back, domain, registers):
        self.back, self.domain = back, domain
        self.sp, self.s0 = registers[0], registers[3]


class Hart:
    def __init__(self, state, domain, pc, registers, frames):
        self.state, self.domain, self.pc, self.registers, self.frames = state, domain, pc, registers, frames


class Snapshot:
    """A machine between two turns, from the bytes of `--save`."""

    def __init__(self, data):
        self.data, self.at = data, 8
        ram, _, _, _, _, _, _, modules, harts, self.steps, _ = self.words(11)
        self.rights, self.owners = [None], []
        for _ in range(modules):
            self.skip(1)
            self.words(6)
            self.skip(8)
            self.rights.append(self.runs([(run >> 2, run & 3) for run in self.words(self.words(1)[0])]))
        pairs = self.words(2 * self.words(1)[0])
        self.owners = self.runs(list(zip(pairs[::2], pairs[1::2])))
        self.skip(12)
        self.harts = [self.hart() for _ in range(harts)]
        self.memory = data[self.at : self.at + 4 * ram]

    def words(self, count):
        found = struct.unpack_from(f"<{count}I", self.data, self.at)
        self.at += 4 * count
        return found

    def skip(self, bytes_):
        """Over a number and so many elements."""
        count = self.words(1)[0]
        self.at += bytes_ * count

    @staticmethod
    def runs(lengths):
        """Runs as (first address, value), ascending."""
        found, at = [], RAM
        for words, value in lengths:
            found.append((at, value))
            at += 4 * words
        return found + [(at, 0)]

    def hart(self):
        state, domain, pc = self.words(3)
        registers = self.words(32)
        frames = []
        for _ in range(self.words(1)[0]):
            back, caller, *kept = self.words(17)
            frames.append(Frame(back, caller, kept))
        self.words(1)
        return Hart(state, domain, pc, registers, frames)

    def value(self, runs, address):
        if address < RAM:
            return 0
        return runs[bisect.bisect_right(runs, address, key=lambda run: run[0]) - 1][1]

    def right(self, domain, address):
        return self.value(self.rights[domain], address)

    def owner(self, address):
        return self.value(self.owners, address)

    def word(self, address):
        at = address - RAM
        return struct.unpack_from("<I", self.memory, at)[0] if 0 <= at <= len(self.memory) - 4 else None


class Runs:
    """The states of a run by its steps: each is had by going on from the one before. Nothing is written but in a folder
    of its own, so that two at once don't mix."""

    def __init__(self, manifest, schedule=None):
        program = shutil.which(os.environ.get("MONDRIX") or "mondrix")
        self.program = program and os.path.abspath(program)
        self.room = tempfile.TemporaryDirectory()
        names = [m[key] for m in manifest.modules for key in ("image", "input") if isinstance(m.get(key), str)]
        ups = max([name.split("/").count("..") for name in names], default=0)
        self.folder = os.path.join(self.room.name, *["x"] * (ups + 1))
        os.makedirs(self.folder)
        for name in set(names):
            if not os.path.isabs(name) and os.path.exists(name):
                place = os.path.join(self.folder, name)
                os.makedirs(os.path.dirname(place), exist_ok=True)
                if not os.path.lexists(place):
                    os.symlink(os.path.abspath(name), place)
        self.manifest = "the.toml"
        while os.path.lexists(os.path.join(self.folder, self.manifest)):
            self.manifest = "x" + self.manifest
        shutil.copyfile(manifest.name, os.path.join(self.folder, self.manifest))
        self.options = ["--schedule", os.path.abspath(schedule)] if schedule else []
        self.steps, self.state = None, None

    def call(self, *words):
        return subprocess.run([self.program, *map(str, words), *self.options], cwd=self.folder, check=False,
                              stdin=subprocess.DEVNULL, stdout=subprocess.DEVNULL, stderr=subprocess.PIPE)

    def at(self, steps):
        """The state after so many steps, or None where it can't be had."""
        if self.program is None:
            return None
        if self.steps != steps:
            if self.steps is None or self.steps > steps:
                done = self.call("run", self.manifest, steps, "--save")
            else:
                done = self.call("resume", "memory.bin", steps - self.steps, "--save")
            self.steps = None
            if done.returncode:
                return None
            with open(os.path.join(self.folder, "memory.bin"), "rb") as file:
                self.steps, self.state = steps, Snapshot(file.read())
        return self.state

    def turns(self, first, last):
        """The turns of a piece of the run: step, hart, domain, pc, kind and the instruction."""
        if self.program is None:
            return
        done = self.call("trace", self.manifest, last, "--from", first)
        for row in done.stderr.decode().splitlines():
            part = row.split(" ", 6)
            if part[0] == "turn" and part[4] != "-":
                yield int(part[1]), int(part[2]), int(part[3]), int(part[4], 16), part[5], part[6]


def signed(value, bits):
    return value - (1 << bits) if value >> (bits - 1) & 1 else value


class Stack:
    """What a function has done to its stack: by how much sp is lower, where it kept ra and s0, counted from sp at its
    entry, and s0 less that sp, where s0 is the frame pointer."""

    def __init__(self, lower=0, kept=None, base=None, known=None, upper=None):
        self.lower, self.kept, self.base = lower, dict(kept or {}), base
        self.known, self.upper = dict(known or {}), dict(upper or {})  # registers with constants

    def copy(self):
        return Stack(self.lower, self.kept, self.base, self.known, self.upper)

    def step(self, image, at, word):
        """One instruction; the addresses that may come next in the function."""
        opcode, to, one, two = word & 127, word >> 7 & 31, word >> 15 & 31, word >> 20 & 31
        function, value = word >> 12 & 7, signed(word >> 20, 12)
        if opcode == 0x37:  # lui
            self.known[to] = word & 0xFFFFF000
        elif opcode == 0x17:  # auipc
            self.upper[to] = at + (word & 0xFFFFF000) & 0xFFFFFFFF
        elif opcode == 0x67 and to == 5 and one in self.upper:  # a call of libgcc's __riscv_save_N
            callee = image.function(self.upper[one] + value & 0xFFFFFFFF)
            if callee and callee[2].startswith("__riscv_save_"):
                self.kept.update({1: -4 - self.lower, 8: -8 - self.lower})
                self.lower += 16 * (int(callee[2][13:]) // 4 + 1)
        elif opcode == 0x13 and function == 0:  # addi
            if to == 2 and one == 2:
                self.lower -= value
            elif to == 8 and one == 2:
                self.base = value - self.lower
                return [at + 4]
            elif one == 0 or one in self.known:
                self.known[to] = self.known.get(one, 0) + value & 0xFFFFFFFF
            else:
                self.known.pop(to, None)
        elif opcode == 0x33 and function == 0 and to == 2 and one == 2 and two in self.known:  # add, sub
            self.lower -= signed(self.known[two], 32) * (-1 if word >> 30 & 1 else 1)
        elif opcode == 0x23 and function == 2 and one == 2 and two in (1, 8):  # sw to the stack
            self.kept.setdefault(two, signed(word >> 25 << 5 | word >> 7 & 31, 12) - self.lower)
        if to == 8 and opcode in (0x03, 0x13, 0x17, 0x33, 0x37):
            self.base = None
        if opcode == 0x63:  # branches
            offset = word >> 31 << 12 | (word >> 7 & 1) << 11 | (word >> 25 & 63) << 5 | (word >> 8 & 15) << 1
            return [at + 4, at + signed(offset, 13)]
        if opcode == 0x6F and to == 0:
            return [at + jump_offset(word)]
        return [] if opcode == 0x67 and to == 0 else [at + 4]


def jump_offset(word):
    """That of a jal."""
    return signed(word >> 31 << 20 | (word >> 12 & 255) << 12 | (word >> 20 & 1) << 11 | (word >> 21 & 1023) << 1, 21)


def stack_at(image, function, pc=None):
    """What a function has done to its stack before the instruction at pc, by a way that leads there; and its frame, the
    most by which sp is lower on what was looked at, all of the function without pc."""
    low, high = function[0], function[0] + (function[1] or 4096)
    ways, seen, frame = [(low, Stack())], set(), 0
    while ways:
        at, stack = ways.pop(0)
        while at not in seen and low <= at < high and (word := image.word(at)) is not None:
            if at == pc:
                return stack, frame
            seen.add(at)
            at, *others = stack.step(image, at, word) or [0]
            frame = max(frame, stack.lower)
            ways += [(other, stack.copy()) for other in others]
    return Stack(), frame


def callers(image, state, pc, sp, s0, ra, most=400):
    """The calls that stand inside a module, as the addresses of their instructions, the nearest first, and the gate by
    which it was entered, or None. ra counts for the nearest alone, where its function hasn't kept it; it is None where
    a gate is called at pc."""
    found, gates = [], {address: name for name, address in image.own_gates().items()}
    while len(found) < most:
        function = image.function(pc)
        if function is None:
            back = ra  # nothing is known of where it is: who called it
        elif function[0] in gates:
            return found[:-1], gates[function[0]]
        elif function[2] in ("start", "mondrix_enter"):
            return found[:-1], None
        else:
            stack, _ = stack_at(image, function, pc)
            sp = (s0 - stack.base if stack.base is not None else sp + stack.lower) & 0xFFFFFFFF
            back = state.word(sp + stack.kept[1]) if 1 in stack.kept else ra
            if 8 in stack.kept:
                s0 = state.word(sp + stack.kept[8]) or 0
        if not back or not image.is_code(back - 4):
            break
        found.append(back - 4)
        pc, ra = back - 4, None
    return found, None
