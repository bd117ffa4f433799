"""What the scripts of this folder share: their words, runs of the program, manifests, images and their lines."""
import atexit, os, re, shutil, signal, struct, subprocess, sys, tempfile

NAME = os.path.basename(sys.argv[0])


def fail(text, status=1):
    """Ends the script with one line. 1 is for a question without an answer, 2 for words without a meaning."""
    print(f'{NAME}: {text}', file=sys.stderr)
    sys.exit(status)


class Ended(SystemExit):
    """A signal has ended the script."""


def end_by(number, _):
    raise Ended(128 + number)


def main(body):
    """Makes the body, so that a signal or a file that can't be read or written ends it in order."""
    for number in (signal.SIGINT, signal.SIGTERM, signal.SIGHUP):
        if signal.getsignal(number) != signal.SIG_IGN:  # (as under nohup)
            signal.signal(number, end_by)
    sys.stdout.reconfigure(errors='backslashreplace')
    try:
        body()
        sys.stdout.flush()
    except BrokenPipeError:
        os.dup2(os.open(os.devnull, os.O_WRONLY), 1)
        sys.exit(1)
    except OSError as error:
        fail(': '.join(filter(None, (error.filename, error.strerror))) or 'a file failed')


def words(usage, least, most, *options):
    """The operands and the options, as `--NAME VALUE`. Without words, and by --help, the usage."""
    if len(sys.argv) == 1 or '--help' in sys.argv[1:]:
        print(usage, end='')
        sys.exit(0 if len(sys.argv) > 1 else 2)
    operands, values, rest = [], {}, iter(sys.argv[1:])
    for word in rest:
        if word.startswith('--') or word in options:
            if word not in options or word in values:
                fail(f'{word} ' + ('stands twice' if word in values else 'is no option') + f'; see {NAME} --help', 2)
            values[word] = next(rest, None)
            if values[word] is None:
                fail(f'a word is missing after {word}; see {NAME} --help', 2)
        elif len(operands) == most:
            fail(f'{word} has no meaning here; see {NAME} --help', 2)
        else:
            operands.append(word)
    if len(operands) < least:
        fail(f'a word is missing; see {NAME} --help', 2)
    return operands + [None] * (most - len(operands)), values


def number(text, what, least=0, most=9999999999):
    if not re.fullmatch('[0-9]+', text) or not least <= int(text) <= most:
        fail(f'{what} is {text}, and no number from {least} to {most}', 2)
    return int(text)


def made_folder():
    made = os.path.realpath(tempfile.mkdtemp(prefix=f'mondrix-{NAME}-'))
    atexit.register(shutil.rmtree, made, True)
    return made


def move(made, to):
    """Puts a whole file where it belongs: whoever looks there sees the old one or this one."""
    if os.stat(made).st_dev != os.stat(os.path.dirname(to) or '.').st_dev:
        made = shutil.copyfile(made, f'{to}.{os.getpid()}')
    os.replace(made, to)


heard = []


def file_of(name):
    """The name of a file that has what the name stands for: `-` is standard input."""
    if name != '-':
        return name
    if heard:
        fail('- stands twice', 2)
    heard.append(os.path.join(made_folder(), 'input'))
    with open(heard[0], 'wb') as file:
        shutil.copyfileobj(sys.stdin.buffer, file)
    return heard[0]


def program():
    name = os.environ.get('MONDRIX') or 'mondrix'
    found = shutil.which(name)
    if found is None:
        fail(f'there is no program {name}: MONDRIX is its name')
    return os.path.abspath(found)


def own_folder():
    """A new folder in which names of files lead where they do in that of the call, but that memory.bin isn't there. So
    what a run writes there is this call's alone. The folders above are made too, for names that begin with `..`."""
    at, above = made_folder(), '/'
    for part in [*filter(None, os.getcwd().split('/')), None]:
        try:
            names = os.listdir(above)
        except PermissionError:
            names = []
        for name in names:
            if name != (part or 'memory.bin'):
                os.symlink(os.path.join(above, name), os.path.join(at, name))
        if part:
            at, above = os.path.join(at, part), os.path.join(above, part)
            os.mkdir(at)
    return at


def start(command, folder=None, console=subprocess.DEVNULL):
    """A run of the program whose report is a pipe."""
    return subprocess.Popen([program(), *command], cwd=folder, stdin=subprocess.DEVNULL, stdout=console,
                            stderr=subprocess.PIPE, encoding='utf-8', errors='replace')


def judge(status, last):
    """Where the program made no run its line is the answer, and its status is this script's."""
    if status < 0:
        fail(f'{program()} was ended by signal {-status}')
    if status > 0:
        print(last.strip() or f'{NAME}: {program()} ended with status {status}', file=sys.stderr)
        sys.exit(status)


def run(command, folder=None, console=subprocess.DEVNULL):
    """The report of a run that was made, by lines of words."""
    with start(command, folder, console) as process:
        try:
            report = process.stderr.read()
        except BaseException:
            process.kill()
            raise
    judge(process.returncode, report.split('\n')[-2] if '\n' in report else report)
    return [line.split() for line in report.splitlines()]


def fields(line):
    """The fields `name=value` of a line of a report."""
    return dict(word.split('=', 1) for word in line if '=' in word)


def end_of(report):
    return next(fields(line) for line in report if line[0] == 'end')


def modules(manifest):
    """The image of each module, or None, and its name, by number."""
    with open(manifest, 'rb') as file:
        text = file.read()
    try:
        import tomllib
        listed = tomllib.loads(text.decode('utf-8-sig'))['module']
    except (ImportError, ValueError):  # (python reads TOML 1.0, the program 1.1)
        parts = re.split(r'(?m)^[ \t]*\[\[[ \t]*module[ \t]*]]', text.decode(errors='replace'))[1:]
        listed = [dict(re.findall(r'''(?m)^[ \t]*(name|image)[ \t]*=[ \t]*["']([^"']*)["']''', part)) for part in parts]
    return {number: (module.get('image'), module.get('name', f'module {number}'))
            for number, module in enumerate(listed, 1)}


def symbols(image):
    """The names in an image's code: address, size and name, by address; of two at one place a function's, then a sized
    one's. And the bounds of its segments of code."""
    with open(image, 'rb') as file:
        data = file.read()
    try:
        return symbols_of(data)
    except (struct.error, ValueError):  # (headers that lead outside the file, which the program takes for no names)
        return [], []


def symbols_of(data):
    place, sections = struct.unpack_from('<II', data, 28)
    size, count, header, many = struct.unpack_from('<HHHH', data, 42)
    code = []
    for i in range(count):
        kind, _, low, _, _, room, flags, _ = struct.unpack_from('<8I', data, place + size * i)
        if kind == 1 and flags & 1:
            code.append((low, low + room))
    found = {}
    for i in range(many):
        _, kind, _, _, at, room, link, _, _, _ = struct.unpack_from('<10I', data, sections + header * i)
        if kind != 2:
            continue
        names = struct.unpack_from('<I', data, sections + header * link + 16)[0]
        for entry in range(at, at + room, 16):
            name, value, length, info, _, index = struct.unpack_from('<IIIBBH', data, entry)
            text = data[names + name:data.index(0, names + name)].decode(errors='replace')
            if text and text[0] not in '$.' and index and info & 15 in (0, 2) and any(a <= value < b for a, b in code):
                rank = (info & 15 == 2, length > 0)
                if value not in found or rank > found[value][0]:
                    found[value] = rank, length, text
    return sorted((value, length, text) for value, (_, length, text) in found.items()), code


def line_of(image, pc):
    """The function and the line in C at an address of code, by addr2line; else the symbol before it."""
    said = '??'
    for tool in (os.environ.get('CROSS', 'riscv64-unknown-elf-') + 'addr2line', 'llvm-addr2line'):
        if shutil.which(tool):
            said = subprocess.run([tool, '-f', '-i', '-p', '-s', '-e', image, hex(pc)], capture_output=True,
                                  encoding='utf-8', errors='replace').stdout
            break
    if said.startswith('??') or not said:
        before = [(address, name) for address, _, name in symbols(image)[0] if address <= pc]
        return f'{before[-1][1]} + {pc - before[-1][0]}' if before else 'no symbol'
    return ' '.join(re.sub(r' \(discriminator [0-9]+\)| at \?\?:[?0-9]+', '', said).split())
