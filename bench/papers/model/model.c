/* model SNAPSHOT FOLDER: counts what the checks of a run cost. The snapshot is that of the machine at the run's start
 * (`run MANIFEST 0 --save`); the run itself comes as the lines of `trace --effects` on standard input. Written from
 * docs/MACHINE.md and docs/COMMANDS.md.
 *
 * In FOLDER the file `figures` gets all counts, and for each kind and each size of a lookaside buffer that the program
 * has a file KIND.SIZE gets the lines that `run --tables --counts` has: those of the maps, of the tables and of the
 * counts. */
#define _GNU_SOURCE
#include <stddef.h>
#include <stdlib.h>
#include <string.h>

#include "caches.h"

enum { BLOCKS_MOST = 1024, CALLS = 14, REGISTERS = 32, CALL_PLACE = 10, WRITE_MOST = 4096 };
enum { WRITE = 2, GRANT, REVOKE_ALL, TRANSFER, ALLOC, FREE, EXCHANGE = 13 };
enum look { FETCH, LOAD, STORE, CALL, LOOKS };

struct module {
    struct span heap, blocks[BLOCKS_MOST];
    uint32_t block_count;
};
/* While a call of a hart is in flight, `heard` has a bit for each hart that has heard it. */
struct hart {
    uint32_t registers[REGISTERS], domain, heard;
    int is_in_flight;
    struct span range;
};
enum turn_kind { IDLE, WAITED, RAN, CROSSED, RETURNED, TRAPPED, CALLED };
struct turn {
    uint32_t hart, domain, pc, base;
    enum turn_kind kind;
    int is_fault, cause, is_ask, is_call, is_load, is_store, is_entered;
    uint32_t value, number, address;
    uint32_t changed, registers[REGISTERS];
};

static struct module modules[DOMAINS_MOST];
static struct hart harts[HARTS_MOST];
static uint32_t hart_count;
static struct frames limits;
static uint64_t turns, looks_by[LOOKS], crossings, returns, faults, calls[CALLS], changes;

static void fail(const char *what) {
    fprintf(stderr, "model: %s\n", what);
    exit(1);
}

/* The snapshot (docs/COMMANDS.md, "The snapshot"). */
static FILE *snapshot;
static uint32_t field(void) {
    uint8_t bytes[4];
    if (fread(bytes, 1, 4, snapshot) != 4) fail("the snapshot ends early");
    return bytes[0] | bytes[1] << 8 | bytes[2] << 16 | (uint32_t)bytes[3] << 24;
}
static void skip(uint32_t count) {
    while (count-- > 0) field();
}

static void read_module(uint32_t domain) {
    struct module *module = &modules[domain];
    for (uint32_t length = field(); length > 0; length--) fgetc(snapshot);
    module->heap.first = field();
    module->heap.count = field();
    skip(4);
    module->block_count = field();
    if (module->block_count > BLOCKS_MOST) fail("the snapshot has too many blocks");
    for (uint32_t i = 0; i < module->block_count; i++) {
        module->blocks[i].first = field();
        module->blocks[i].count = field();
    }
    uint32_t first = 0;
    for (uint32_t runs = field(); runs > 0; runs--) {
        uint32_t run = field();
        tables_put(domain, first, run / 4, run % 4);
        first += run / 4;
    }
}

static void read_snapshot(const char *name) {
    if (!(snapshot = fopen(name, "rb")) || field() != 0x4e53584d || field() != 1) fail("no snapshot");
    uint32_t words = field();
    field();
    limits.upper = field();
    limits.leaf = field();
    limits.spill = field();
    skip(2);
    uint32_t module_count = field();
    hart_count = field();
    skip(2);
    if (module_count >= DOMAINS_MOST || hart_count > HARTS_MOST) fail("the snapshot is too large");
    tables_make(words, module_count);
    for (uint32_t d = 1; d <= module_count; d++) read_module(d);
    tables_begin();
    skip(2 * field());
    skip(3 * field());
    for (struct hart *hart = harts; hart < harts + hart_count; hart++) {
        if (field() == 1) fail("a hart waits in the snapshot");
        skip(2);
        for (int i = 0; i < REGISTERS; i++) hart->registers[i] = field();
        skip(17 * field() + 1);
    }
    fclose(snapshot);
}

/* The lines of a trace. */
static uint64_t number(const char **at) {
    const char *from = *at, *digit;
    uint64_t value = 0;
    if (from[0] == '0' && from[1] == 'x')
        for (*at = from + 2; **at && (digit = strchr("0123456789abcdef", **at)); ++*at)
            value = 16 * value + (uint64_t)(digit - "0123456789abcdef");
    else
        for (; **at >= '0' && **at <= '9'; ++*at) value = 10 * value + (uint64_t)(**at - '0');
    if (*at == from) fail("a line of the trace has another form");
    ++*at;
    return value;
}

static enum turn_kind kind_of(const char *text) {
    static const char *const names[] = {"idle ", "waited ", "ran ", "crossed ", "returned ", "trapped ", "called "};
    for (enum turn_kind kind = IDLE; kind <= CALLED; kind++)
        if (strncmp(text, names[kind], strlen(names[kind])) == 0) return kind;
    fail("a turn has another kind");
    return IDLE;
}

/* `turn S H D 0xP K TEXT`; the base register is that in brackets. Answers whether the hart is there. */
static int read_turn(const char *line, struct turn *turn) {
    memset(turn, 0, offsetof(struct turn, registers));
    const char *at = line + 5, *bracket;
    number(&at);
    turn->hart = (uint32_t)number(&at);
    if (*at == '-') return 0;
    if (turn->hart >= hart_count) fail("a turn has another hart");
    turn->domain = (uint32_t)number(&at);
    turn->pc = (uint32_t)number(&at);
    turn->kind = kind_of(at);
    if ((bracket = strchr(at, '(')) && bracket[1] == 'x') {
        bracket += 2;
        turn->base = (uint32_t)number(&bracket);
    }
    return 1;
}

static int begins(const char **at, const char *word) {
    size_t length = strlen(word);
    if (strncmp(*at, word, length) != 0) return 0;
    *at += length;
    return 1;
}

/* One field of `did F F ..`. */
static void read_effect(const char **at, struct turn *turn) {
    if (begins(at, "x")) {
        uint32_t place = (uint32_t)number(at);
        turn->registers[place % REGISTERS] = (uint32_t)number(at);
        turn->changed |= 1u << place % REGISTERS;
    } else if ((turn->is_load |= begins(at, "load=")) || (turn->is_store |= begins(at, "store="))) {
        turn->address = (uint32_t)number(at);
        number(at);
        if (turn->is_store) number(at);
    } else if (begins(at, "fault=")) {
        turn->is_fault = 1;
        turn->cause = (int)number(at);
        turn->value = (uint32_t)number(at);
    } else if ((turn->is_ask |= begins(at, "asks=")) || (turn->is_call |= begins(at, "call="))) {
        turn->number = (uint32_t)number(at);
    } else if (begins(at, "domain=")) {
        turn->is_entered = 1;
        number(at);
    } else if (begins(at, "exit=")) {
        number(at);
    } else {
        fail("a turn did something else");
    }
}

/* Looks and calls. */
static int is_in_ram(uint32_t address) { return address - RAM < 4 * ram_words; }
static uint32_t word_of(uint32_t address) { return (address - RAM) / 4; }

static void look_at_address(const struct turn *turn, enum look what, uint32_t place, uint32_t address) {
    struct span heard[HARTS_MOST];
    uint32_t count = 0;
    if (!is_in_ram(address)) return;
    for (uint32_t i = 0; i < hart_count; i++)
        if (harts[i].is_in_flight && harts[i].heard >> turn->hart & 1) heard[count++] = harts[i].range;
    looks_by[what]++;
    look(turn->hart, place, turn->domain, word_of(address), heard, count);
}

/* The words of a range of bytes, and none where it is no range. */
static struct span range_of(uint32_t address, uint32_t bytes) {
    if (bytes == 0 || address % 4 != 0 || !is_in_ram(address) || bytes > 4 * ram_words - (address - RAM))
        return (struct span){0, 0};
    return (struct span){word_of(address), bytes / 4 + (bytes % 4 != 0)};
}

static int is_announced(uint32_t number) {
    return number == GRANT || number == REVOKE_ALL || number == ALLOC || number == FREE;
}
static struct span announced(const struct turn *turn) {
    const uint32_t *registers = harts[turn->hart].registers;
    if (turn->number == GRANT || turn->number == REVOKE_ALL) return range_of(registers[10], registers[11]);
    return modules[turn->domain].heap;
}

/* The words that call 2 reads, up to the first that is denied. */
static void look_at_text(const struct turn *turn, uint32_t address, uint32_t bytes) {
    if (bytes == 0 || bytes > WRITE_MOST || !is_in_ram(address) || bytes > 4 * ram_words - (address - RAM)) return;
    for (uint32_t word = word_of(address); word <= word_of(address + bytes - 1); word++) {
        look_at_address(turn, CALL, CALL_PLACE, RAM + 4 * word);
        if (permission_of(turn->domain, word) == NONE) return;
    }
}

static void change_others(uint32_t caller, struct span range) {
    for (uint32_t d = 1; d <= domains; d++)
        if (d != caller) change(d, range.first, range.count, NONE);
}

static void allocated(uint32_t caller, struct span block) {
    struct module *module = &modules[caller];
    if (module->block_count == BLOCKS_MOST) fail("there are too many blocks");
    module->blocks[module->block_count++] = block;
    change(caller, block.first, block.count, READ_WRITE);
    change_others(caller, block);
}
static void freed(uint32_t caller, uint32_t first) {
    struct module *module = &modules[caller];
    for (uint32_t i = 0; i < module->block_count; i++) {
        if (module->blocks[i].first != first) continue;
        change(caller, first, module->blocks[i].count, NONE);
        change_others(caller, module->blocks[i]);
        module->blocks[i] = module->blocks[--module->block_count];
        return;
    }
    fail("a block that isn't there was freed");
}

/* A call that isn't refused; x10 has its answer, and `before` what the registers were. */
static void changed_rights(const struct turn *turn, const uint32_t before[REGISTERS], uint32_t answer) {
    struct span range = range_of(before[10], before[11]);
    changes++;
    switch (turn->number) {
    case GRANT: change(before[12], range.first, range.count, before[13]); break;
    case REVOKE_ALL: change_others(turn->domain, range); break;
    case ALLOC: allocated(turn->domain, (struct span){word_of(answer), before[10]}); break;
    case FREE: freed(turn->domain, word_of(before[10])); break;
    }
}

static void take_effect(const struct turn *turn) {
    struct hart *hart = &harts[turn->hart];
    uint32_t answer = turn->changed >> 10 & 1 ? turn->registers[10] : hart->registers[10];
    calls[turn->number < CALLS ? turn->number : 0]++;
    if (turn->number == WRITE) look_at_text(turn, hart->registers[10], hart->registers[11]);
    if (turn->number == EXCHANGE && hart->registers[10] % 4 == 0)
        look_at_address(turn, CALL, CALL_PLACE, hart->registers[10]);
    if (!is_announced(turn->number)) return;
    drop(turn->hart, announced(turn));
    hart->is_in_flight = 0;
    if (turn->number == ALLOC ? is_in_ram(answer) : answer == 0) changed_rights(turn, hart->registers, answer);
}

/* The calls in flight of others that a hart hears for the first time. */
static void hear(uint32_t hart) {
    for (uint32_t i = 0; i < hart_count; i++) {
        if (i == hart || !harts[i].is_in_flight || harts[i].heard >> hart & 1) continue;
        harts[i].heard |= 1u << hart;
        drop(hart, harts[i].range);
    }
}

static int is_fetched(const struct turn *turn) {
    switch (turn->kind) {
    case RAN: return 1;
    case CALLED: return !harts[turn->hart].is_in_flight;
    case RETURNED: return turn->is_entered;
    case TRAPPED: return turn->cause != 16 && turn->cause != 19 && turn->cause != 20;
    default: return 0;
    }
}

static void make_turn(const struct turn *turn) {
    struct hart *hart = &harts[turn->hart];
    if (turn->kind == IDLE) return;
    hear(turn->hart);
    if (is_fetched(turn)) look_at_address(turn, FETCH, 0, turn->pc);
    if (turn->is_load || turn->is_store)
        look_at_address(turn, turn->is_load ? LOAD : STORE, turn->base, turn->address);
    if (turn->is_fault && (turn->cause == 5 || turn->cause == 7))
        look_at_address(turn, turn->cause == 5 ? LOAD : STORE, turn->base, turn->value);
    if (turn->is_call) take_effect(turn);
    if (turn->is_ask) {
        hart->is_in_flight = 1;
        hart->heard = 0;
        hart->range = announced(turn);
    }
    if (turn->is_entered) empty_places(turn->hart);
    for (int i = 0; i < REGISTERS; i++)
        if (turn->changed >> i & 1) hart->registers[i] = turn->registers[i];
    crossings += turn->kind == CROSSED;
    returns += turn->kind == RETURNED && turn->is_entered;
    faults += turn->is_fault != 0;
}

/* Each turn's line is followed by one of what it did, or by none. Answers whether the end line came. */
static int read_trace(void) {
    char *line = 0;
    size_t room = 0;
    struct turn turn;
    int is_open = 0;
    ssize_t length;
    while ((length = getline(&line, &room, stdin)) > 0) {
        const char *at = line, *end = line + length;
        if (begins(&at, "did ")) {
            while (at < end) read_effect(&at, &turn);
            continue;
        }
        if (is_open) make_turn(&turn);
        is_open = strncmp(line, "turn ", 5) == 0 && read_turn(line, &turn);
        turns += strncmp(line, "turn ", 5) == 0;
        if (strncmp(line, "end steps=", 10) == 0) return 1;
    }
    return 0;
}

/* What comes out. */
static FILE *file_in(const char *folder, const char *name) {
    char path[4096];
    snprintf(path, sizeof path, "%s/%s", folder, name);
    FILE *file = fopen(path, "w");
    if (!file) fail("a file can't be written");
    return file;
}

static void put_counts(FILE *out, uint32_t form) {
    for (uint32_t hart = 0; hart < hart_count; hart++) {
        struct counts of = counts[hart][form];
        fprintf(out, "counts %u sidecar=%ju lookaside=%ju walks=%ju\n", hart,
                (uintmax_t)(looks[hart] - of.lookaside - of.walks), (uintmax_t)of.lookaside, (uintmax_t)of.walks);
    }
}

/* What the program too has: its kinds, spans, the first out, three sizes. */
static void put_program_forms(const char *folder) {
    for (uint32_t i = 0; i < FORMS; i++) {
        struct form form = forms[i];
        char name[64];
        if ((int)form.kind >= PROGRAM_KINDS || form.kept != SPANS || form.order != FIRST_OUT) continue;
        if (form.size != 8 && form.size != 32 && form.size != 64) continue;
        snprintf(name, sizeof name, "%s.%u", kind_names[form.kind], form.size);
        FILE *out = file_in(folder, name);
        put_maps(out);
        put_tables(out, form.kind, limits);
        put_counts(out, i);
        if (fclose(out) != 0) fail("a file can't be written");
    }
}

static void put_frames(FILE *out, struct frames frames) {
    fprintf(out, "\t%u\t%u\t%u", frames.upper, frames.leaf, frames.spill);
}
static void put_space(FILE *out, enum kind kind) {
    const struct space *space = &spaces[kind];
    fprintf(out, "space\t%s", kind_names[kind]);
    put_frames(out, space->boot);
    put_frames(out, space->now);
    put_frames(out, space->taken);
    put_frames(out, space->given);
    fprintf(out, "\t%ju\t%ju\t%ju\n", (uintmax_t)space->boot_words, (uintmax_t)space->most_words,
            (uintmax_t)space->written);
}
static void put_form(FILE *out, uint32_t i) {
    struct counts sum = {0, 0, {0, 0, 0, 0, 0}};
    uint64_t all = 0;
    for (uint32_t hart = 0; hart < hart_count; hart++) {
        all += looks[hart];
        sum.lookaside += counts[hart][i].lookaside;
        sum.walks += counts[hart][i].walks;
        for (int level = 0; level < LEVELS; level++) sum.reads[level] += counts[hart][i].reads[level];
    }
    fprintf(out, "form\t%s\t%s\t%s\t%u\t%ju\t%ju\t%ju", kind_names[forms[i].kind],
            forms[i].kept == SPANS ? "spans" : "entries", forms[i].order == FIRST_OUT ? "first" : "used", forms[i].size,
            (uintmax_t)(all - sum.lookaside - sum.walks), (uintmax_t)sum.lookaside, (uintmax_t)sum.walks);
    for (int level = 0; level < LEVELS; level++) fprintf(out, "\t%ju", (uintmax_t)sum.reads[level]);
    fputc('\n', out);
}

static void put_figures(const char *folder) {
    FILE *out = file_in(folder, "figures");
    fprintf(out, "turns\t%ju\nlooks\t%ju\t%ju\t%ju\t%ju\n", (uintmax_t)turns, (uintmax_t)looks_by[FETCH],
            (uintmax_t)looks_by[LOAD], (uintmax_t)looks_by[STORE], (uintmax_t)looks_by[CALL]);
    fprintf(out, "gates\t%ju\t%ju\t%ju\nchanges\t%ju\nrights\t%u\t%u\t%u\n", (uintmax_t)crossings, (uintmax_t)returns,
            (uintmax_t)faults, (uintmax_t)changes, rights_boot, rights_now, rights_most);
    for (int i = 0; i < CALLS; i++)
        if (calls[i] > 0) fprintf(out, "call\t%d\t%ju\n", i, (uintmax_t)calls[i]);
    for (enum kind kind = 0; kind < KINDS; kind++) put_space(out, kind);
    for (uint32_t i = 0; i < FORMS; i++) put_form(out, i);
    if (fclose(out) != 0) fail("a file can't be written");
}

int main(int count, char **words) {
    if (count != 3) {
        fputs("usage: model SNAPSHOT FOLDER <trace\n", stderr);
        return 2;
    }
    read_snapshot(words[1]);
    caches_make();
    if (!read_trace()) fail("the trace has no end line");
    put_program_forms(words[2]);
    put_figures(words[2]);
    return 0;
}
