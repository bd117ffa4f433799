"""Follows a run by its trace: rights, owners, gates, blocks, registers and the calls that stand after each turn. What a
supervisor's call did follows from its number, its arguments in the registers, and its answer (docs/MACHINE.md)."""
import bisect, struct

import machine

RAM = 0x80000000
WORD = 0xffffffff
EXIT, WRITE, GRANT, REVOKE, TRANSFER, ALLOC, FREE, GATE, UNGATE, RETURN = 1, 2, 3, 4, 5, 6, 7, 8, 9, 10
NONE, READ_WRITE = 0, 2
RIGHTS = ['none', 'r', 'rw', 'rx']


class Runs:
    """A number for each word, as runs."""

    def __init__(self, low, high):
        self.at, self.value, self.end = [low], [0], high

    def after(self, place):
        return self.at[place + 1] if place + 1 < len(self.at) else self.end

    def put(self, low, high, value):
        """The parts that changed, each with what it had."""
        first, last = bisect.bisect_right(self.at, low) - 1, bisect.bisect_left(self.at, high) - 1
        changed = [(max(self.at[i], low), min(self.after(i), high), self.value[i]) for i in range(first, last + 1)
                   if self.value[i] != value]
        if not changed:
            return []
        parts = [(low, value)]
        if self.at[first] < low:
            parts.insert(0, (self.at[first], self.value[first]))
        if high < self.after(last):
            parts.append((high, self.value[last]))
        self.at[first:last + 1], self.value[first:last + 1] = map(list, zip(*parts))
        for i in range(min(first + len(parts), len(self.at) - 1), max(first, 1) - 1, -1):
            if self.value[i] == self.value[i - 1]:
                del self.at[i], self.value[i]
        return changed

    def shown(self):
        """The runs with a number other than 0: from, to, number."""
        return [(low, self.after(i), self.value[i]) for i, low in enumerate(self.at) if self.value[i]]


class Standing:
    """What a snapshot has beside the report: gates, live blocks, frames, and which modules are killing."""

    def __init__(self, data):
        self.data, self.at = data, 8
        self.ram, _, _, _, _, _, _, modules, harts, _, _ = self.words(11)
        self.killing, self.blocks = [False], {}
        for domain in range(1, modules + 1):
            name = self.words(1)[0]
            self.at += name
            _, _, _, _, killing, _ = self.words(6)
            self.killing.append(bool(killing))
            for _ in range(self.words(1)[0]):
                first, words = self.words(2)
                self.blocks[RAM + 4 * first] = domain, words
            self.words(self.words(1)[0])
        self.words(2 * self.words(1)[0])
        self.gates = {}
        for _ in range(self.words(1)[0]):
            domain, word, target = self.words(3)
            self.gates[domain, RAM + 4 * word] = target
        self.frames = []
        for _ in range(harts):
            self.words(35)
            rows = [self.words(17) for _ in range(self.words(1)[0])]
            self.words(1)
            self.frames.append([(back, caller) for back, caller, *_ in rows])

    def words(self, count):
        found = struct.unpack_from(f'<{count}I', self.data, self.at)
        self.at += 4 * count
        return found


class Report:
    """The closing lines of a report."""

    def __init__(self, lines):
        self.events = [' '.join(line) for line in lines if line[0] in ('fault', 'exit')]
        self.names, self.dead, self.maps, self.owners, self.harts = {}, set(), [], [], {}
        for line in lines:
            if line[0] == 'domain':
                self.names[int(line[1])] = line[2]
                if line[3:] == ['dead']:
                    self.dead.add(int(line[1]))
            elif line[0] == 'map':
                self.maps.append((int(line[1]), int(line[2], 16), int(line[3], 16), RIGHTS.index(line[4])))
            elif line[0] == 'owner':
                self.owners.append((int(line[1], 16), int(line[2], 16), int(line[3])))
            elif line[0] == 'hart':
                self.harts[int(line[1])] = machine.fields(line)
            elif line[0] == 'regs':
                self.harts[int(line[1])]['x'] = [int(word, 16) for word in line[2:]]
            elif line[0] == 'end':
                self.steps, self.state = int(machine.fields(line)['steps']), machine.fields(line)['state']


class Call:
    """A call that stands: a function's, or through a gate. The step and the place are those of the jump; in what stood
    before the first turn the step is 0."""

    def __init__(self, above, is_gate, step, domain, pc, to, entered, back, sp):
        self.above, self.is_gate, self.step, self.domain, self.pc = above, is_gate, step, domain, pc
        self.to, self.entered, self.back, self.sp = to, entered, back, sp


class Hart:
    def __init__(self, row):
        self.status, self.domain, self.x = row['status'], int(row['domain']), list(row['x'])
        self.top, self.depth, self.moves = None, 0, []  # the number of the innermost call, gates in it, its changes


class Wrong(Exception):
    """The trace tells something that doesn't follow from what it told before."""


class Follower:
    def __init__(self, report, standing):
        self.ram_end = RAM + 4 * standing.ram
        self.killing, self.dead, self.gates, self.blocks = standing.killing, set(report.dead), \
            dict(standing.gates), dict(standing.blocks)
        self.begun_gates = dict(standing.gates)
        self.rights = {domain: Runs(RAM, self.ram_end) for domain in report.names}
        self.owners = Runs(RAM, self.ram_end)
        for domain, low, high, right in report.maps:
            self.rights[domain].put(low, high, right)
        for low, high, owner in report.owners:
            self.owners.put(low, high, owner)
        self.calls = []
        self.harts = {number: Hart(row) for number, row in report.harts.items()}
        for number, hart in self.harts.items():
            frames = standing.frames[number]
            entered = [caller for _, caller in frames[1:]] + [hart.domain]
            for (back, caller), callee in zip(frames, entered):
                self.push(hart, 0, Call(hart.top, True, 0, caller, back - 4 & WORD, None, callee, back, 0))
        self.changes, self.gate_changes, self.deaths, self.writes = [], [], [], []
        self.events = []

    # Calls that stand.

    def push(self, hart, step, call):
        self.calls.append(call)
        hart.depth += call.is_gate
        self.stand(hart, step, len(self.calls) - 1)

    def stand(self, hart, step, top):
        hart.top = top
        if hart.moves and hart.moves[-1][0] == step:
            hart.moves[-1] = step, top
        else:
            hart.moves.append((step, top))

    def own_calls(self, hart):
        """Those of functions since the innermost gate, from the innermost."""
        top = hart.top
        while top is not None and not self.calls[top].is_gate:
            yield self.calls[top]
            top = self.calls[top].above

    def leave(self, hart, step):
        """Up to before the innermost gate."""
        top = hart.top
        while top is not None and not self.calls[top].is_gate:
            top = self.calls[top].above
        if top is None:
            raise Wrong('a call ends that never began')
        hart.depth -= 1
        hart.domain = self.calls[top].domain
        self.stand(hart, step, self.calls[top].above)

    def jumped(self, hart, step, pc, text):
        """A jump that links is a call, and one that doesn't may be the end of one."""
        name, _, rest = text.partition(' ')
        if name not in ('jal', 'jalr'):
            return
        link, _, to = rest.partition(', ')
        if name == 'jal':
            target = pc + int(to) & WORD
        else:
            offset, _, base = to[:-1].partition('(')
            target = hart.x[int(base[1:])] + int(offset) & WORD & ~1
        if link in ('x1', 'x5'):
            for call in list(self.own_calls(hart)):  # (what longjmp left behind)
                if call.sp >= hart.x[2]:
                    break
                self.stand(hart, step, call.above)
            self.push(hart, step, Call(hart.top, False, step, hart.domain, pc, target, hart.domain, pc + 4 & WORD,
                                       hart.x[2]))
        elif link == 'x0' and name == 'jalr':
            for call in self.own_calls(hart):
                if call.back == target:
                    self.stand(hart, step, call.above)
                    break

    def crossed(self, hart, step, pc, domain):
        call = self.calls[hart.top] if hart.top is not None else None
        if call and not call.is_gate and (call.to, call.back) == (pc, hart.x[1]):
            hart.top = call.above
            made = Call(call.above, True, call.step, hart.domain, call.pc, pc, domain, hart.x[1], 0)
        else:
            made = Call(hart.top, True, step, hart.domain, hart.x[1] - 4 & WORD, pc, domain, hart.x[1], 0)
        self.push(hart, step, made)
        hart.domain = domain

    # Supervisor's calls.

    def change(self, step, hart, number, low, high, parts, owned, detail):
        self.changes.append((step, number, self.harts[hart].domain, hart, low, high, detail, parts, owned))

    def put(self, domain, low, high, right):
        return [(domain, a, b, had, right) for a, b, had in self.rights[domain].put(low, high, right)]

    def called(self, step, hart, number, answer):
        """What a call that wasn't refused has changed."""
        me, x = self.harts[hart].domain, self.harts[hart].x
        low, high = x[10], x[10] + (x[11] + 3) // 4 * 4
        if number == WRITE and answer <= 4096:
            self.writes.append((step, answer))
        elif number == GRANT and answer == 0:
            self.change(step, hart, number, low, high, self.put(x[12], low, high, x[13]), [], (x[12], x[13]))
        elif number == REVOKE and answer == 0:
            parts = [part for domain in self.rights if domain != me for part in self.put(domain, low, high, NONE)]
            self.change(step, hart, number, low, high, parts, [], (0, 0))
        elif number == TRANSFER and answer == 0:
            owned = [(a, b, had, x[12]) for a, b, had in self.owners.put(low, high, x[12])]
            self.change(step, hart, number, low, high, [], owned, (x[12], 0))
        elif number == ALLOC and RAM <= answer < self.ram_end:
            self.blocks[answer] = me, x[10]
            low, high = answer, answer + 4 * x[10]
            parts = [part for domain in self.rights
                     for part in self.put(domain, low, high, READ_WRITE if domain == me else NONE)]
            self.change(step, hart, number, low, high, parts, [], (me, 2))
        elif number == FREE and answer == 0:
            _, words = self.blocks.pop(low)
            high = low + 4 * words
            parts = [part for domain in self.rights for part in self.put(domain, low, high, NONE)]
            self.change(step, hart, number, low, high, parts, [], (0, 0))
        elif number in (GATE, UNGATE, RETURN) and answer == 0:
            domain = me if number == RETURN else x[11]
            had = self.gates.get((domain, low), 0)
            now = 0 if number == UNGATE else me
            self.gates[domain, low] = now
            if not now:
                del self.gates[domain, low]
            self.gate_changes.append((step, domain, low, had, now))

    # A turn.

    def turn(self, step, number, domain, pc, kind, text, did):
        hart = self.harts[number]
        if domain != hart.domain:
            raise Wrong(f'hart {number} is in domain {hart.domain}, and at step {step} in {domain}')
        put, said = [], {}
        for word in did:
            name, _, value = word.partition('=')
            if name[0] == 'x':
                put.append((int(name[1:]), int(value, 16)))
            else:
                said[name] = value
        moved = int(said['domain']) if 'domain' in said else None
        if 'call' in said:
            self.called(step, number, int(said['call']), dict(put).get(10, hart.x[10]))
            hart.status = 'running'
        if 'asks' in said:
            hart.status = 'waiting'
        if 'exit' in said:
            hart.status = 'halted'
            self.events.append(f'exit step={step} hart={number} domain={domain} code={said["exit"]}')
        if 'fault' in said:
            self.faulted(step, number, domain, pc, said['fault'])
        if kind == 'crossed':
            self.crossed(hart, step, pc, moved)
        elif kind in ('returned', 'trapped') and moved is not None:
            self.leave(hart, step)
        elif kind == 'returned':  # (sent back by a dead module)
            if hart.top is not None and self.calls[hart.top].back == hart.x[1]:
                self.stand(hart, step, self.calls[hart.top].above)
        elif kind == 'ran':
            self.jumped(hart, step, pc, text)
        if moved is not None and moved != hart.domain:
            raise Wrong(f'hart {number} goes back to domain {moved} at step {step}, and not to {hart.domain}')
        for register, value in put:
            hart.x[register] = value

    def faulted(self, step, number, domain, pc, text):
        cause, _, value = text.partition('/')
        self.events.append(f'fault step={step} hart={number} domain={domain} pc={pc:#010x} cause={cause} value={value}')
        if self.killing[domain] and cause != '20' and domain not in self.dead:
            self.dead.add(domain)
            self.deaths.append((step, domain))
        if self.harts[number].depth == 0:
            self.harts[number].status = 'halted'

    # The end.

    def differs(self, report, standing):
        """What isn't as the program says that it is at the end, or nothing."""
        if [(d, *run) for d, runs in self.rights.items() for run in runs.shown()] != report.maps:
            return 'rights'
        if self.owners.shown() != report.owners:
            return 'owners'
        if self.gates != standing.gates:
            return 'gates'
        if self.blocks != standing.blocks:
            return 'blocks'
        if self.dead != report.dead:
            return 'dead modules'
        for number, hart in self.harts.items():
            row = report.harts[number]
            if (hart.status, hart.domain, hart.depth, hart.x) != \
                    (row['status'], int(row['domain']), int(row['frames']), row['x']):
                return f'hart {number}'
        return '' if self.events == report.events[len(report.events) - len(self.events):] else 'faults and exits'


def turns(process):
    """The turns of a trace with `--effects`, each with what it did; domain and pc are None for a hart that isn't
    there. The last line comes as it is."""
    turn = None
    for row in process.stderr:
        if row.startswith('did '):
            turn = (*turn[:-1], row.split()[1:])
            continue
        if turn:
            yield turn
        if not row.startswith('turn '):
            yield row
            return
        _, step, hart, domain, pc, kind, text = row.rstrip('\n').split(' ', 6)
        is_there = pc != '-'
        turn = (int(step), int(hart), int(domain) if is_there else None, int(pc, 16) if is_there else None, kind, text,
                [])

