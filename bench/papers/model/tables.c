#include "tables.h"

#include <stdlib.h>
#include <string.h>

enum { MIXED = 0xff, EIGHTHS = 8, RUNS_IN_ENTRY = 4 };

const char *const kind_names[KINDS] = {"segments", "multilevel", "packed", "multilevel, kept", "packed, kept"};
static const char *const level_names[LEVELS] = {"segment", "root", "mid", "leaf", "spill"};

/* A domain's map: the permission of each word of the regions that RAM lies in; what follows from it by page and by
 * region; and its runs, each 4 times its first word, with its permission. */
struct map {
    uint8_t *permissions;
    uint8_t (*pages)[EIGHTHS];
    uint8_t (*regions)[EIGHTHS];
    uint8_t *lines_spilled; /* by page */
    uint8_t *pages_kept, *regions_kept;
    uint32_t *runs, run_count, run_room;
};

static struct map maps[DOMAINS_MOST];
static uint8_t *domains_with_right; /* by word */
struct space spaces[KINDS];
uint32_t ram_words, domains;
uint32_t rights_boot, rights_now, rights_most;
static uint32_t regions;

static uint32_t least(uint32_t a, uint32_t b) { return a < b ? a : b; }

static void *made(size_t count, size_t size) {
    void *room = calloc(count, size);
    if (!room) {
        fputs("model: no memory\n", stderr);
        exit(1);
    }
    return room;
}

static int is_trie(enum kind kind) { return kind != SEGMENTS; }
static int is_packed(enum kind kind) { return kind == PACKED || kind == PACKED_KEPT; }
static int is_kept(enum kind kind) { return kind == MULTILEVEL_KEPT || kind == PACKED_KEPT; }

static int is_even(const uint8_t eighths[EIGHTHS]) { return !memchr(eighths, MIXED, EIGHTHS); }

/* The permission of a part of a map, or MIXED. */
static uint8_t common(const uint8_t *permissions, size_t count) {
    return memcmp(permissions, permissions + 1, count - 1) ? MIXED : permissions[0];
}

void tables_make(uint32_t words, uint32_t modules) {
    ram_words = words;
    domains = modules;
    regions = (words + REGION - 1) / REGION;
    for (uint32_t d = 1; d <= domains; d++) {
        maps[d].permissions = made(regions, REGION);
        maps[d].pages = made(regions, REGION / PAGE * EIGHTHS);
        maps[d].regions = made(regions, EIGHTHS);
        maps[d].lines_spilled = made(regions, REGION / PAGE);
        maps[d].pages_kept = made(regions, REGION / PAGE);
        maps[d].regions_kept = made(regions, 1);
    }
    domains_with_right = made(regions, REGION);
}

enum permission permission_of(uint32_t domain, uint32_t word) { return maps[domain].permissions[word]; }

/* The starts of a line's runs. */
static unsigned runs_of_line(const struct map *map, uint32_t line, uint8_t starts[LINE]) {
    const uint8_t *at = map->permissions + line * LINE;
    unsigned count = 0;
    for (uint8_t i = 0; i < LINE; i++)
        if (i == 0 || at[i] != at[i - 1]) starts[count++] = i;
    return count;
}

static int is_spilled(const struct map *map, uint32_t line) {
    uint8_t starts[LINE];
    return runs_of_line(map, line, starts) > RUNS_IN_ENTRY;
}

/* How many words of RAM right before a line carry the permission of its first word, and right after it that of its
 * last. */
static uint32_t left_reach(const struct map *map, uint32_t line) {
    uint32_t first = line * LINE, most = least(MOST_REACH, first), reach = 0;
    while (reach < most && map->permissions[first - 1 - reach] == map->permissions[first]) reach++;
    return reach;
}
static uint32_t right_reach(const struct map *map, uint32_t line) {
    uint32_t end = line * LINE + LINE, most = least(MOST_REACH, ram_words - end), reach = 0;
    while (reach < most && map->permissions[end + reach] == map->permissions[end - 1]) reach++;
    return reach;
}

/* The run that holds a word. */
static uint32_t run_at(const struct map *map, uint32_t word) {
    uint32_t low = 0, high = map->run_count;
    while (high - low > 1) {
        uint32_t middle = low + (high - low) / 2;
        if (map->runs[middle] / 4 <= word) low = middle;
        else high = middle;
    }
    return low;
}
static uint32_t run_end(const struct map *map, uint32_t run) {
    return run + 1 < map->run_count ? map->runs[run + 1] / 4 : ram_words;
}

/* Whether a region has a table of its own in this kind, and a page. */
static int has_mid(enum kind kind, const struct map *map, uint32_t region) {
    return !is_even(map->regions[region]) || (is_kept(kind) && map->regions_kept[region]);
}
static int has_leaf(enum kind kind, const struct map *map, uint32_t page) {
    return !is_even(map->pages[page]) || (is_kept(kind) && map->pages_kept[page]);
}

static struct span cut(uint32_t first, uint32_t end) { return (struct span){first, least(end, ram_words) - first}; }

static struct walk walk_of_segments(const struct map *map, uint32_t word) {
    uint32_t run = run_at(map, word), first = map->runs[run] / 4;
    struct span span = cut(first, run_end(map, run));
    struct walk walk = {span, span, 1, SEGMENT};
    for (uint32_t left = map->run_count; left > 1; left /= 2) walk.reads++;
    return walk;
}

/* An upper entry that is a vector: the eighth, and the whole block. */
static struct walk walk_of_vector(uint32_t word, uint32_t block, unsigned reads, enum level level) {
    uint32_t eighth = block / EIGHTHS, from = word / eighth * eighth, whole = word / block * block;
    return (struct walk){cut(from, from + eighth), cut(whole, whole + block), reads, level};
}

static struct walk walk_of_line(enum kind kind, const struct map *map, uint32_t word) {
    uint8_t starts[LINE];
    uint32_t line = word / LINE, begin = line * LINE, end = begin + LINE;
    unsigned count = runs_of_line(map, line, starts), run = count - 1;
    while (begin + starts[run] > word) run--;
    uint32_t from = begin + starts[run], to = run + 1 < count ? begin + starts[run + 1] : end;
    struct walk walk = {{0, 0}, {0, 0}, 3, LEAF};
    if (is_packed(kind) && count > RUNS_IN_ENTRY) {
        walk.reads = 4;
        walk.level = SPILL;
    } else if (is_packed(kind)) {
        uint32_t left = left_reach(map, line), right = right_reach(map, line);
        if (run == 0) from -= left;
        if (run == count - 1) to += right;
        begin -= left;
        end += right;
    }
    walk.reach = cut(from, to);
    walk.entry = cut(begin, end);
    return walk;
}

struct walk walk_of(enum kind kind, uint32_t domain, uint32_t word) {
    const struct map *map = &maps[domain];
    if (!is_trie(kind)) return walk_of_segments(map, word);
    if (!has_mid(kind, map, word / REGION)) return walk_of_vector(word, REGION, 1, ROOT);
    if (!has_leaf(kind, map, word / PAGE)) return walk_of_vector(word, PAGE, 2, MID);
    return walk_of_line(kind, map, word);
}

/* Stored words. A pointer is shown as 0, which no vector is: its number isn't told. */
static uint32_t vector(const uint8_t eighths[EIGHTHS]) {
    uint32_t word = 1;
    for (unsigned i = 0; i < EIGHTHS; i++) word |= (uint32_t)eighths[i] << (2 + 2 * i);
    return word;
}
static uint32_t region_word(enum kind kind, const struct map *map, uint32_t region) {
    return has_mid(kind, map, region) ? 0 : vector(map->regions[region]);
}
static uint32_t page_word(enum kind kind, const struct map *map, uint32_t page) {
    return has_leaf(kind, map, page) ? 0 : vector(map->pages[page]);
}
static uint32_t plain_word(const struct map *map, uint32_t line) {
    uint32_t word = 0;
    for (unsigned i = 0; i < LINE; i++) word |= (uint32_t)map->permissions[line * LINE + i] << (2 * i);
    return word;
}
static uint32_t packed_word(const struct map *map, uint32_t line) {
    uint8_t starts[LINE];
    unsigned count = runs_of_line(map, line, starts);
    uint32_t word = 2;
    for (unsigned i = 0; i < count; i++) {
        word |= (uint32_t)map->permissions[line * LINE + starts[i]] << (2 + 2 * i);
        if (i > 0) word |= (uint32_t)starts[i] << (6 + 4 * i);
    }
    return word | right_reach(map, line) << 22 | left_reach(map, line) << 27;
}

/* A line's word: that in the leaf table, or its spill word. */
static uint32_t line_word(enum kind kind, const struct map *map, uint32_t line) {
    return is_packed(kind) && !is_spilled(map, line) ? packed_word(map, line) : plain_word(map, line);
}

uint64_t words_of(struct frames frames) {
    return (uint64_t)UPPER_WORDS * frames.upper + LEAF_WORDS * frames.leaf + frames.spill;
}

/* What the tables below a region's entry are. */
static struct frames frames_of_region(enum kind kind, const struct map *map, uint32_t region) {
    struct frames frames = {0, 0, 0};
    if (!has_mid(kind, map, region)) return frames;
    frames.upper = 1;
    for (uint32_t page = region * (REGION / PAGE); page < (region + 1) * (REGION / PAGE); page++) {
        if (!has_leaf(kind, map, page)) continue;
        frames.leaf++;
        if (is_packed(kind)) frames.spill += map->lines_spilled[page];
    }
    return frames;
}

static uint32_t frames_of_runs(uint32_t runs) { return (runs + LEAF_WORDS - 1) / LEAF_WORDS; }

static struct frames need(enum kind kind) {
    struct frames sum = {0, 0, 0};
    for (uint32_t d = 1; d <= domains; d++) {
        if (!is_trie(kind)) {
            sum.leaf += frames_of_runs(maps[d].run_count);
            continue;
        }
        sum.upper++;
        for (uint32_t region = 0; region < regions; region++) {
            struct frames below = frames_of_region(kind, &maps[d], region);
            sum.upper += below.upper;
            sum.leaf += below.leaf;
            sum.spill += below.spill;
        }
    }
    return sum;
}

/* Lays a permission over a range, and what follows for its pages and regions. */
static void lay(struct map *map, uint32_t first, uint32_t count, enum permission permission) {
    for (uint32_t word = first; word < first + count; word++) {
        int had = map->permissions[word] != NONE, has = permission != NONE;
        if (had == has) continue;
        domains_with_right[word] = (uint8_t)(domains_with_right[word] + has - had);
        if (domains_with_right[word] == (has ? 1 : 0)) rights_now += has ? 1u : -1u;
    }
    memset(map->permissions + first, permission, count);
    if (rights_now > rights_most) rights_most = rights_now;
}
static void look_at_page(struct map *map, uint32_t page) {
    const uint32_t eighth = PAGE / EIGHTHS;
    for (uint32_t i = 0; i < EIGHTHS; i++)
        map->pages[page][i] = common(map->permissions + page * PAGE + i * eighth, eighth);
    map->lines_spilled[page] = 0;
    for (uint32_t line = page * (PAGE / LINE); line < (page + 1) * (PAGE / LINE); line++)
        map->lines_spilled[page] += is_spilled(map, line);
    if (!is_even(map->pages[page])) map->pages_kept[page] = 1;
}
static void look_at_region(struct map *map, uint32_t region) {
    const uint32_t eighth = REGION / PAGE / EIGHTHS;
    for (uint32_t i = 0; i < EIGHTHS; i++) {
        const uint8_t *of_pages = map->pages[region * (REGION / PAGE) + i * eighth];
        map->regions[region][i] = common(of_pages, eighth * EIGHTHS);
    }
    if (!is_even(map->regions[region])) map->regions_kept[region] = 1;
}
static void look_at(struct map *map, uint32_t first, uint32_t count) {
    for (uint32_t page = first / PAGE; page <= (first + count - 1) / PAGE; page++) look_at_page(map, page);
    for (uint32_t region = first / REGION; region <= (first + count - 1) / REGION; region++)
        look_at_region(map, region);
}

static void put_run(struct map *map, uint32_t first, enum permission permission) {
    if (map->run_count > 0 && map->runs[map->run_count - 1] % 4 == permission) return;
    if (map->run_count == map->run_room) {
        map->run_room = map->run_room ? 2 * map->run_room : 1024;
        map->runs = realloc(map->runs, map->run_room * sizeof *map->runs);
        if (!map->runs) exit(1);
    }
    map->runs[map->run_count++] = 4 * first + permission;
}

void tables_put(uint32_t domain, uint32_t first, uint32_t count, enum permission permission) {
    lay(&maps[domain], first, count, permission);
    put_run(&maps[domain], first, permission);
}

void tables_begin(void) {
    for (uint32_t d = 1; d <= domains; d++) look_at(&maps[d], 0, regions * REGION);
    rights_boot = rights_most = rights_now;
    for (enum kind kind = 0; kind < KINDS; kind++) {
        spaces[kind].now = spaces[kind].boot = need(kind);
        spaces[kind].boot_words = spaces[kind].most_words = words_of(spaces[kind].now);
    }
}

/* Entries of segments: those after the range move, and each that then differs is written. */
static void change_runs(struct map *map, uint32_t first, uint32_t end, enum permission permission) {
    uint32_t count = map->run_count, *old = made(count, sizeof *old), run = 0;
    struct space *space = &spaces[SEGMENTS];
    memcpy(old, map->runs, count * sizeof *old);
    uint32_t last = run_at(map, end < ram_words ? end : ram_words - 1);
    map->run_count = 0;
    for (; run < count && old[run] / 4 < first; run++) put_run(map, old[run] / 4, old[run] % 4);
    put_run(map, first, permission);
    if (end < ram_words) {
        put_run(map, end, old[last] % 4);
        for (run = last + 1; run < count; run++) put_run(map, old[run] / 4, old[run] % 4);
    }
    for (run = 0; run < map->run_count; run++) space->written += run >= count || old[run] != map->runs[run];
    for (uint32_t had = frames_of_runs(count); had < frames_of_runs(map->run_count); had++) space->taken.leaf++;
    for (uint32_t had = frames_of_runs(count); had > frames_of_runs(map->run_count); had--) space->given.leaf++;
    space->now.leaf += frames_of_runs(map->run_count) - frames_of_runs(count);
    free(old);
}

/* What was stored near a range before it changed: near are the words whose lines' reaches may change. */
struct near {
    uint32_t region, region_end, page, page_end, line, line_end;
    uint32_t *region_words, *page_words, *line_words;
    uint8_t *spilled, *page_spills;
    struct frames *frames;
};

static struct near near_of(uint32_t first, uint32_t end) {
    uint32_t from = first > MOST_REACH ? first - MOST_REACH : 0, last = least(end + MOST_REACH, ram_words) - 1;
    return (struct near){from / REGION, last / REGION + 1, from / PAGE, last / PAGE + 1, from / LINE, last / LINE + 1,
                         0, 0, 0, 0, 0, 0};
}
static void read_near(struct near *near, enum kind kind, const struct map *map) {
    near->region_words = made(near->region_end - near->region, sizeof(uint32_t));
    near->page_words = made(near->page_end - near->page, sizeof(uint32_t));
    near->line_words = made(near->line_end - near->line, sizeof(uint32_t));
    near->spilled = made(near->line_end - near->line, 1);
    near->page_spills = made(near->page_end - near->page, 1);
    near->frames = made(near->region_end - near->region, sizeof *near->frames);
    for (uint32_t i = near->region; i < near->region_end; i++) {
        near->region_words[i - near->region] = region_word(kind, map, i);
        near->frames[i - near->region] = frames_of_region(kind, map, i);
    }
    for (uint32_t i = near->page; i < near->page_end; i++) {
        near->page_words[i - near->page] = page_word(kind, map, i);
        near->page_spills[i - near->page] = is_packed(kind) ? map->lines_spilled[i] : 0;
    }
    for (uint32_t i = near->line; i < near->line_end; i++) {
        near->line_words[i - near->line] = line_word(kind, map, i);
        near->spilled[i - near->line] = (uint8_t)(is_packed(kind) && is_spilled(map, i));
    }
}
static void forget_near(struct near *near) {
    free(near->region_words);
    free(near->page_words);
    free(near->line_words);
    free(near->spilled);
    free(near->page_spills);
    free(near->frames);
}

/* A leaf table that a page had and has: entries that differ are written, and spill words, which may get an entry. */
static void compare_page(struct space *space, enum kind kind, const struct map *map, const struct near *near,
                         uint32_t page) {
    const uint32_t lines = PAGE / LINE;
    uint32_t from = page * lines > near->line ? page * lines : near->line;
    for (uint32_t line = from; line < least((page + 1) * lines, near->line_end); line++) {
        int had = near->spilled[line - near->line], has = is_packed(kind) && is_spilled(map, line);
        int differs = near->line_words[line - near->line] != line_word(kind, map, line);
        space->written += has && !had ? 2 : (had != has || differs);
        space->taken.spill += has && !had;
        space->given.spill += had && !has;
    }
}

/* A mid table that a region had and has. A leaf table that is taken is written as a whole. */
static void compare_region(struct space *space, enum kind kind, const struct map *map, const struct near *near,
                           uint32_t region) {
    const uint32_t pages = REGION / PAGE;
    uint32_t from = region * pages > near->page ? region * pages : near->page;
    for (uint32_t page = from; page < least((region + 1) * pages, near->page_end); page++) {
        uint32_t had = near->page_words[page - near->page], has = page_word(kind, map, page);
        uint32_t spills = is_packed(kind) ? map->lines_spilled[page] : 0;
        if (had == 0 && has == 0) {
            compare_page(space, kind, map, near, page);
        } else if (has == 0) {
            space->written += 1 + LEAF_WORDS + spills;
            space->taken.leaf++;
            space->taken.spill += spills;
        } else {
            space->written += had != has;
            space->given.leaf += had == 0;
            space->given.spill += had == 0 ? near->page_spills[page - near->page] : 0;
        }
    }
}

static void add(struct frames *sum, struct frames more) {
    sum->upper += more.upper;
    sum->leaf += more.leaf;
    sum->spill += more.spill;
}

static void compare_near(struct near *near, enum kind kind, const struct map *map) {
    struct space *space = &spaces[kind];
    for (uint32_t region = near->region; region < near->region_end; region++) {
        uint32_t had = near->region_words[region - near->region], has = region_word(kind, map, region);
        struct frames was = near->frames[region - near->region], is = frames_of_region(kind, map, region);
        if (had == 0 && has == 0) {
            compare_region(space, kind, map, near, region);
        } else if (has == 0) {
            space->written += 1 + words_of(is);
            add(&space->taken, is);
        } else {
            space->written += had != has;
            add(&space->given, was);
        }
        add(&space->now, is);
        space->now.upper -= was.upper;
        space->now.leaf -= was.leaf;
        space->now.spill -= was.spill;
    }
}

void change(uint32_t domain, uint32_t first, uint32_t count, enum permission permission) {
    struct map *map = &maps[domain];
    if (map->permissions[first] == permission && (count == 1 || common(map->permissions + first, count) == permission))
        return;
    struct near near[KINDS];
    for (enum kind kind = MULTILEVEL; kind < KINDS; kind++) {
        near[kind] = near_of(first, first + count);
        read_near(&near[kind], kind, map);
    }
    lay(map, first, count, permission);
    look_at(map, first, count);
    change_runs(map, first, first + count, permission);
    for (enum kind kind = MULTILEVEL; kind < KINDS; kind++) {
        compare_near(&near[kind], kind, map);
        forget_near(&near[kind]);
    }
    for (enum kind kind = 0; kind < KINDS; kind++) {
        uint64_t words = words_of(spaces[kind].now);
        if (words > spaces[kind].most_words) spaces[kind].most_words = words;
    }
}

void put_maps(FILE *out) {
    static const char *const rights[] = {"none", "r", "rw", "rx"};
    for (uint32_t d = 1; d <= domains; d++)
        for (uint32_t run = 0; run < maps[d].run_count; run++) {
            uint32_t first = maps[d].runs[run] / 4, permission = maps[d].runs[run] % 4;
            if (permission != NONE)
                fprintf(out, "map %u 0x%08x 0x%08x %s\n", d, RAM + 4 * first, RAM + 4 * run_end(&maps[d], run),
                        rights[permission]);
        }
}

static void put_shown(FILE *out, uint32_t domain, enum level level, uint32_t word, uint32_t value) {
    fprintf(out, "shown %u %s 0x%08x 0x%08x\n", domain, level_names[level], RAM + 4 * word, value);
}
static int has_right(const struct map *map, uint32_t first, uint32_t count) {
    return map->permissions[first] != NONE || common(map->permissions + first, count) == MIXED;
}
static void put_page(FILE *out, enum kind kind, uint32_t domain, uint32_t page) {
    const struct map *map = &maps[domain];
    if (!has_leaf(kind, map, page)) {
        put_shown(out, domain, MID, page * PAGE, vector(map->pages[page]));
        return;
    }
    for (uint32_t line = page * (PAGE / LINE); line < (page + 1) * (PAGE / LINE); line++)
        if (has_right(map, line * LINE, LINE))
            put_shown(out, domain, is_packed(kind) && is_spilled(map, line) ? SPILL : LEAF, line * LINE,
                      line_word(kind, map, line));
}
static void put_region(FILE *out, enum kind kind, uint32_t domain, uint32_t region) {
    const struct map *map = &maps[domain];
    if (!has_mid(kind, map, region)) {
        put_shown(out, domain, ROOT, region * REGION, vector(map->regions[region]));
        return;
    }
    for (uint32_t page = region * (REGION / PAGE); page < (region + 1) * (REGION / PAGE); page++)
        if (has_right(map, page * PAGE, PAGE)) put_page(out, kind, domain, page);
}

void put_tables(FILE *out, enum kind kind, struct frames limits) {
    struct frames used = need(kind);
    fprintf(out, "tables kind=%s upper=%u/%u leaf=%u/%u spill=%u/%u\n", kind_names[kind], used.upper, limits.upper,
            used.leaf, limits.leaf, used.spill, limits.spill);
    for (uint32_t d = 1; d <= domains; d++) {
        const struct map *map = &maps[d];
        for (uint32_t run = 0; !is_trie(kind) && run < map->run_count; run++)
            if (map->runs[run] % 4 != NONE) put_shown(out, d, SEGMENT, map->runs[run] / 4, RAM + map->runs[run]);
        for (uint32_t region = 0; is_trie(kind) && region < regions; region++)
            if (has_right(map, region * REGION, REGION)) put_region(out, kind, d, region);
    }
}
