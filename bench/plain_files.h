/* The update files that plain_play.c reads, with the checks that docs/FORMATS.md states, and the entries that are
   offered. */
enum { FILE_LIMIT = 67108864, MOST_ENTRIES = 65536 };

/* ---- Update files ---- */

struct patch { struct patch *next; uint32_t first, blocks, rev; bool stays; uint8_t bytes[]; };

struct entry {
    const uint8_t *bytes, *table;
    uint32_t len, rev, rows;
    bool amd;
    struct patch *patch;
};

static struct {
    struct bytes file[MOST_FILES];
    struct entry *entries;
    size_t files, count, room;
} catalog;

static uint32_t word_at(const uint8_t *at) {
    uint32_t value;
    memcpy(&value, at, 4);
    return value;
}

static uint16_t half_at(const uint8_t *at) {
    return at[0] | at[1] << 8;
}

static uint32_t sum_of(const uint8_t *bytes, size_t len) {
    uint32_t sum = 0;
    for (size_t at = 0; at < len; at += 4) {
        sum += word_at(bytes + at);
    }
    return sum;
}

static void add_entry(struct entry entry) {
    if (catalog.count == catalog.room) {
        catalog.room = catalog.room ? 2 * catalog.room : 64;
        catalog.entries = need(realloc(catalog.entries, catalog.room * sizeof *catalog.entries));
    }
    catalog.entries[catalog.count++] = entry;
}

struct fault { uint64_t offset, entry; const char *cause; };

static const char *table_fault(const uint8_t *update, const uint8_t *table, uint64_t len, uint64_t *entry) {
    uint32_t wanted = word_at(update + 12) + word_at(update + 24) + word_at(update + 16);
    if (len < 20) {
        return "ext-cut";
    }
    if (len != 20 + 12 * (uint64_t)word_at(table)) {
        return "ext-count";
    }
    if (sum_of(table, len) != 0) {
        return "ext-sum";
    }
    for (*entry = 0; *entry < word_at(table); ++*entry) {
        if (sum_of(table + 20 + 12 * *entry, 12) != wanted) {
            return "entry-sum";
        }
    }
    return NULL;
}

static const char *add_update(const uint8_t *update, uint64_t left, uint64_t before, uint64_t *entry) {
    if (before == MOST_ENTRIES) {
        return "too-many";
    }
    if (left < 48) {
        return "short";
    }
    uint64_t data = word_at(update + 28), total = word_at(update + 32);
    if (data == 0) {
        data = 2000, total = 2048;
    }
    if (data % 4 || total % 4) {
        return "size-unaligned";
    }
    if (total < 48) {
        return "total-small";
    }
    if (48 + data > total) {
        return "data-past-total";
    }
    if (word_at(update) != 1 || word_at(update + 20) != 1) {
        return "version";
    }
    if (total > left) {
        return "truncated";
    }
    const uint8_t *table = update + 48 + data;
    uint64_t rest = total - 48 - data;
    const char *cause = rest ? table_fault(update, table, rest, entry) : NULL;
    if (cause) {
        return cause;
    }
    if (sum_of(update, 48 + data) != 0) {
        return "sum";
    }
    add_entry((struct entry){update, table, total, word_at(update + 4), rest ? word_at(table) : 0, false, NULL});
    return NULL;
}

static const char *add_section(const uint8_t *at, uint64_t left, uint64_t before, const uint8_t *table, uint32_t rows) {
    if (left < 8) {
        return "section-short";
    }
    if (word_at(at) != 1) {
        return "section-type";
    }
    uint32_t size = word_at(at + 4);
    if (size < 64) {
        return "patch-small";
    }
    if (size > left - 8) {
        return "patch-cut";
    }
    const uint8_t *patch = at + 8;
    unsigned family = 0xf + (half_at(patch + 24) >> 12);
    if ((family >= 0x10 && family <= 0x12 && size > 2048) || (family == 0x14 && size > 1824)) {
        return "family-size";
    }
    if (word_at(patch + 16) || word_at(patch + 20)) {
        return "chipset";
    }
    if (before == MOST_ENTRIES) {
        return "too-many";
    }
    add_entry((struct entry){patch, table, size, word_at(patch + 4), rows, true, NULL});
    return NULL;
}

static const char *container_fault(const uint8_t *at, uint64_t left) {
    return left < 12                     ? "equiv-short"
           : word_at(at) != 0x00414d44   ? "magic"
           : word_at(at + 4) != 0        ? "equiv-type"
           : word_at(at + 8) < 16        ? "table-small"
           : word_at(at + 8) > left - 12 ? "table-cut"
                                         : NULL;
}

/* Adds the entries of a file, or tells its first fault. */
static struct fault add_file(struct bytes file) {
    bool amd = file.len >= 4 && word_at(file.at) == 0x00414d44;
    const uint8_t *table = NULL;
    uint32_t rows = 0;
    size_t before = catalog.count;
    struct fault fault = {0};
    while (fault.offset < file.len) {
        const uint8_t *at = file.at + fault.offset;
        uint64_t left = file.len - fault.offset;
        if (amd && (fault.offset == 0 || (left >= 4 && word_at(at) == 0x00414d44))) {
            fault.cause = container_fault(at, left);
            if (!fault.cause) {
                table = at + 12;
                rows = word_at(at + 8) / 16;
                fault.offset += 12 + word_at(at + 8);
            }
        } else if (amd) {
            fault.cause = add_section(at, left, catalog.count - before, table, rows);
            fault.offset += fault.cause ? 0 : 8 + word_at(at + 4);
        } else {
            fault.cause = add_update(at, left, catalog.count - before, &fault.entry);
            fault.offset += fault.cause ? 0 : catalog.entries[catalog.count - 1].len;
        }
        if (fault.cause) {
            return fault;
        }
    }
    return fault;
}

static void forget_files(void) {
    for (size_t f = 0; f < catalog.files; f++) {
        free(catalog.file[f].at);
    }
    catalog.files = catalog.count = 0;
}

static void say_fault(const char *words, struct word name, struct fault fault) {
    say(words);
    say_name(name);
    say_number(" at ", fault.offset, " ");
    say(fault.cause);
    if (!strcmp(fault.cause, "entry-sum")) {
        say_number(" ", fault.entry, "");
    }
    say("\n");
}

/* The file that all names hold while input is generated. */
static struct bytes bundle;

/* Reads the files of a command; where one fails, its answer is written and told. */
static enum status read_files(const struct command *command) {
    forget_files();
    for (uint32_t f = 0; f < command->names; f++) {
        struct word name = command->name[f];
        struct bytes file;
        if (tallies) {
            file = (struct bytes){memcpy(need(malloc(bundle.len)), bundle.at, bundle.len), bundle.len};
        } else if (!read_file(name, FILE_LIMIT, &file)) {
            say("answer read-fault ");
            say_name(name);
            say("\n");
            return READ_FAULT;
        }
        catalog.file[catalog.files++] = file;
        struct fault fault = file.len > FILE_LIMIT ? (struct fault){FILE_LIMIT, 0, "too-long"} : add_file(file);
        if (fault.cause) {
            say_fault("answer bad-file ", name, fault);
            return BAD_INPUT;
        }
    }
    return DONE;
}

/* ---- Offers ---- */

static unsigned family_of(uint32_t sig) {
    unsigned family = sig >> 8 & 15;
    return family == 15 ? 15 + (sig >> 20 & 255) : family;
}

static bool meets(const uint8_t *sig_at, const uint8_t *flags_at, int group) {
    uint32_t flags = word_at(flags_at), wanted = machine_of.flags[group];
    return word_at(sig_at) == machine_of.sig[group] && ((!flags && !wanted) || (flags & wanted));
}

static bool fits(const struct entry *entry, int group) {
    if (entry->amd != machine_of.amd) {
        return false;
    }
    if (!entry->amd) {
        bool met = meets(entry->bytes + 12, entry->bytes + 24, group);
        for (uint32_t k = 0; k < entry->rows && !met; k++) {
            met = meets(entry->table + 20 + 12 * k, entry->table + 24 + 12 * k, group);
        }
        return met;
    }
    uint16_t id = half_at(entry->bytes + 24);
    unsigned family = family_of(machine_of.sig[group]);
    if (!id || 0xfu + (id >> 12) != family || family == 0xf || family == 0x13) {
        return false;
    }
    uint32_t row = 0;
    while (row < entry->rows && word_at(entry->table + 16 * row) != machine_of.sig[group]) {
        row++;
    }
    return row < entry->rows && half_at(entry->table + 16 * row + 12) == id;
}

static bool is_safe(const struct entry *entry, uint32_t rev) {
    return !entry->amd && word_at(entry->bytes + 40) && word_at(entry->bytes + 40) <= rev;
}

static struct entry *offer_of(int group, uint32_t rev, bool force) {
    struct entry *best = NULL;
    for (struct entry *entry = catalog.entries; entry < catalog.entries + catalog.count; entry++) {
        if (entry->rev > (best ? best->rev : rev) && (!force || is_safe(entry, rev)) && fits(entry, group)) {
            best = entry;
        }
    }
    return best;
}
