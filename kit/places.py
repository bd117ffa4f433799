"""What the images of a manifest tell of addresses: functions, lines of C with their text, names of data, and areas."""
import bisect, os, re, shutil, struct, subprocess

import machine


def tools():
    """The readers of line tables that there are."""
    for name in (os.environ.get('CROSS') or 'riscv64-unknown-elf-') + 'addr2line', 'llvm-addr2line':
        if shutil.which(name):
            yield name


def lines_of(image, addresses):
    """For each address that has a line the functions there, from the innermost: name, file and line."""
    found, asked = {}, '\n'.join(map(hex, addresses)) + '\n'
    for tool in tools():
        said = subprocess.run([tool, '-a', '-f', '-i', '-e', image], input=asked, capture_output=True, encoding='utf-8',
                              errors='replace', check=False).stdout.splitlines()
        at, rows = None, iter(said)
        for row in rows:
            if re.fullmatch('0x[0-9a-f]+', row):
                at = int(row, 16)
                continue
            file, _, line = re.sub(r' \(discriminator [0-9]+\)', '', next(rows, '')).rpartition(':')
            if at is not None and row != '??' and file not in ('', '??') and line not in ('', '0', '?'):
                found.setdefault(at, []).append((row, file.removeprefix('./'), int(line)))
        break
    return found


class Places:
    def __init__(self, modules, kit):
        self.images = {domain: image for domain, (image, _) in modules.items() if image and os.path.isfile(image)}
        self.kit, self.listed = kit, {}
        self.symbols = {domain: machine.symbols(image) for domain, image in self.images.items()}

    def holder(self, domain, pc):
        """The module whose image has this address, of two the domain's own."""
        return next((number for number in [domain, *self.symbols]
                     if any(low <= pc < high for low, high in self.symbols.get(number, ([], []))[1])), 0)

    def lines(self, spots):
        """The places of code as rows of [function, file, line], the innermost first, each once; for each (domain, pc)
        the number of its place; and of each file the lines that are named, with their text."""
        asked, rows, numbers = {}, {}, {}
        for spot in dict.fromkeys(spots):
            asked.setdefault(self.holder(*spot), []).append(spot)
        for holder, held in asked.items():
            if not holder:
                continue
            found = lines_of(self.images[holder], sorted({pc for _, pc in held}))
            for spot in held:
                place = found.get(spot[1]) or self.near(holder, spot[1])
                if place:
                    numbers[spot] = rows.setdefault((holder, *place), len(rows))
        return [[place[0], *map(list, place[1:])] for place in rows], numbers, self.texts(rows)

    def near(self, holder, pc):
        """Without a line, the symbol before it."""
        listed, code = self.symbols[holder]
        low = max((low for low, high in code if low <= pc < high), default=None)
        at = bisect.bisect(listed, (pc, 1 << 32, '')) - 1
        if low is None or at < 0 or listed[at][0] < low:
            return []
        return [(listed[at][2] + (f' + {pc - listed[at][0]}' if pc > listed[at][0] else ''), '', 0)]

    def texts(self, rows):
        """Of each file whether it is newer than the image, and the text of the lines that places name."""
        found = {}
        for holder, *place in rows:
            for _, file, line in place:
                if file and file not in found:
                    found[file] = self.source(file, self.images[holder])
        wanted = {}
        for _, *place in rows:
            for _, file, line in place:
                if file and found[file] and line <= len(found[file][1]):
                    wanted.setdefault(file, [found[file][0], {}])[1][line] = found[file][1][line - 1][:200]
        return wanted

    def source(self, file, image):
        inside = file.removeprefix('kit/')
        for name in (file, os.path.join(self.kit, inside) if inside != file else ''):
            if name and os.path.isfile(name):
                with open(name, encoding='utf-8', errors='replace') as source:
                    return os.stat(name).st_mtime > os.stat(image).st_mtime + 1, source.read().split('\n')
        return None

    def names(self):
        """The functions and the data of each image: domain, address, bytes, name."""
        found = []
        for domain, (listed, _) in self.symbols.items():
            found += [(domain, address, size, name) for address, size, name in listed + self.data(domain)]
        return sorted(set(found), key=lambda row: (row[1], row[0]))

    def data(self, domain):
        """The symbols outside code, which machine.symbols leaves out."""
        from mondrix import Image
        try:
            image = Image(self.images[domain])
        except (OSError, struct.error, IndexError):
            return []
        if image.detail:
            return []
        spans = [(segment.low, segment.high) for segment in image.segments if not segment.is_code]
        loose = [(value, 0, name) for name, value in image.absolute.items()] if not image.objects else []
        return [(value, size, name) for value, size, name in image.objects + loose
                if any(low <= value < high for low, high in spans)]

    @staticmethod
    def areas(manifest):
        """The areas of each module: domain, from, to, what it is. Nothing where python can't read the manifest."""
        from mondrix import Manifest, Refused
        try:
            read = Manifest(manifest)
            return [(domain, low, high, what) for domain in range(1, len(read.modules) + 1)
                    for low, high, what, _ in read.areas(domain)]
        except (Refused, KeyError, TypeError, IndexError, struct.error):
            return []
