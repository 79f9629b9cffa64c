/* What plain_play.c prints, and the topology and the script that it reads, with the checks that docs/FORMATS.md
   states. */
#include <fcntl.h>
#include <stdlib.h>
#include <unistd.h>
#include "rendezvous.h"

enum { BLOCK = 65536, LINE = 256, MOST_FILES = 16, MOST_COMMANDS = 4096, MOST_EVENTS = 4194304 };
enum { TOPOLOGY_LIMIT = 1048576, SCRIPT_LIMIT = 16777216 };
enum status { DONE, USAGE, BAD_INPUT, SHORT, READ_FAULT, WRITE_FAULT, PANICKED, NO_MEMORY };

/* ---- Standard output, or a tally of its lines ---- */

static char out[BLOCK + LINE], last[128];
static size_t held, last_len;
static uint64_t tallied;
static bool tallies;

static void hand_on(size_t len) {
    if (tallies) {
        char *line = out;
        for (char *end; (end = memchr(line, '\n', out + held - line)); line = end + 1, tallied++) {
            last_len = end - line < 128 ? end - line : 128;
            memcpy(last, line, last_len);
        }
        held -= line - out;
        memmove(out, line, held);
        return;
    }
    for (size_t sent = 0; sent < len;) {
        ssize_t more = write(1, out + sent, len - sent);
        if (more <= 0) {
            exit(WRITE_FAULT);
        }
        sent += more;
    }
    memmove(out, out + len, held - len);
    held -= len;
}

static inline char *line_begin(void) {
    return out + held;
}

static inline void line_end(char *end) {
    held = end - out;
    if (held >= BLOCK) {
        hand_on(BLOCK);
    }
}

static void say(const char *words) {
    line_end(add(line_begin(), words));
}

static void say_number(const char *words, uint64_t number, const char *after) {
    line_end(add(add_number(add(line_begin(), words), number), after));
}

static void say_hex(const char *words, uint32_t number, const char *after) {
    line_end(add(add_hex(add(line_begin(), words), number), after));
}

struct word { const char *at; size_t len; };

static void say_name(struct word name) {
    while (name.len) {
        size_t part = name.len < LINE ? name.len : LINE;
        line_end((char *)memcpy(line_begin(), name.at, part) + part);
        name.at += part;
        name.len -= part;
    }
}

static void *need(void *memory) {
    if (!memory) {
        say("error memory\n");
        hand_on(held);
        exit(NO_MEMORY);
    }
    return memory;
}

/* ---- Files ---- */

struct bytes { uint8_t *at; size_t len; };

/* Reads a file, at most one byte past the limit; false where that fails. */
static bool read_file(struct word name, size_t limit, struct bytes *file) {
    char *path = need(strndup(name.at, name.len));
    int from = strlen(path) == name.len ? open(path, O_RDONLY) : -1;
    size_t room = BLOCK;
    ssize_t more = from < 0 ? -1 : 1;
    free(path);
    *file = (struct bytes){need(malloc(room)), 0};
    while (more > 0 && file->len <= limit) {
        if (file->len == room) {
            file->at = need(realloc(file->at, room *= 2));
        }
        more = read(from, file->at + file->len, room - file->len);
        file->len += more > 0 ? more : 0;
    }
    if (from >= 0) {
        close(from);
    }
    if (more < 0) {
        free(file->at);
    }
    return more >= 0;
}

/* ---- Lines and words ---- */

struct text { const char *at, *end; uint32_t number; };

static bool next_word(struct text *line, struct word *word) {
    while (line->at < line->end && (*line->at == ' ' || *line->at == '\t')) {
        line->at++;
    }
    word->at = line->at;
    while (line->at < line->end && *line->at != ' ' && *line->at != '\t') {
        line->at++;
    }
    word->len = line->at - word->at;
    return word->len > 0;
}

/* The next line that has words and is no comment. */
static bool next_line(struct text *text, struct text *line) {
    while (text->at < text->end) {
        const char *end = memchr(text->at, '\n', text->end - text->at);
        *line = (struct text){text->at, end ? end : text->end, ++text->number};
        text->at = end ? end + 1 : text->end;
        line->end -= line->end > line->at && line->end[-1] == '\r';
        struct text look = *line;
        struct word word;
        if (line->at < line->end && *line->at != '#' && next_word(&look, &word)) {
            return true;
        }
    }
    return false;
}

enum { MOST_WORDS = MOST_FILES + 1 };

/* Splits a line; a count of MOST_WORDS + 1 says that there are more. */
static int split(struct text line, struct word *words) {
    int count = 0;
    struct word word;
    while (count <= MOST_WORDS && next_word(&line, &word)) {
        words[count++] = word;
    }
    return count;
}

static bool is(struct word word, const char *text) {
    return word.len == strlen(text) && !memcmp(word.at, text, word.len);
}

static bool read_number(struct word word, uint64_t *value) {
    unsigned base = word.len > 2 && word.at[0] == '0' && word.at[1] == 'x' ? 16 : 10;
    *value = 0;
    for (size_t at = base == 16 ? 2 : 0; at < word.len; at++) {
        unsigned byte = (unsigned char)word.at[at];
        unsigned digit = byte - '0' < 10u ? byte - '0' : (byte | 32) - 'a' < 6u ? (byte | 32) - 'a' + 10 : 99;
        if (digit >= base || __builtin_mul_overflow(*value, (uint64_t)base, value)
            || __builtin_add_overflow(*value, (uint64_t)digit, value)) {
            return false;
        }
    }
    return word.len > 0;
}

static bool is_utf8(struct word word) {
    const unsigned char *at = (const unsigned char *)word.at, *end = at + word.len;
    while (at < end) {
        unsigned lead = *at++;
        int more = lead < 0x80 ? 0 : lead < 0xc2 ? -1 : lead < 0xe0 ? 1 : lead < 0xf0 ? 2 : lead < 0xf5 ? 3 : -1;
        if (more < 0 || end - at < more) {
            return false;
        }
        unsigned low = lead == 0xe0 ? 0xa0 : lead == 0xf0 ? 0x90 : 0x80;
        unsigned high = lead == 0xed ? 0x9f : lead == 0xf4 ? 0x8f : 0xbf;
        for (; more > 0; more--, low = 0x80, high = 0xbf) {
            if (*at < low || *at++ > high) {
                return false;
            }
        }
    }
    return true;
}

/* ---- The topology ---- */

static struct {
    bool amd;
    int version, cores, threads, groups;
    uint16_t group_of_core[MOST], core_of[MOST], lead[MOST], primary[MOST];
    uint32_t sig[MOST], flags[MOST], bios[MOST];
} machine_of;

static const char *add_core(const struct word *words, int count) {
    int shift = machine_of.version == 2 ? 2 : 0;
    uint64_t core, package, facts[3];
    if (count != 8 + shift || (shift && !is(words[2], "package")) || !is(words[2 + shift], "sig")
        || !is(words[4 + shift], "flags") || !is(words[6 + shift], "rev")) {
        return "word";
    }
    bool ok = read_number(words[1], &core) && core <= UINT16_MAX;
    package = core;
    ok = ok && (!shift || (read_number(words[3], &package) && package <= UINT16_MAX));
    for (int k = 0; k < 3; k++) {
        ok = ok && read_number(words[3 + shift + 2 * k], &facts[k]) && facts[k] <= UINT32_MAX;
    }
    if (!ok) {
        return "number";
    }
    if (machine_of.cores == MOST) {
        return "too-many";
    }
    if (core != (uint64_t)machine_of.cores || package > (uint64_t)machine_of.groups) {
        return "order";
    }
    if (package == (uint64_t)machine_of.groups) {
        int g = machine_of.groups++;
        machine_of.sig[g] = facts[0], machine_of.flags[g] = facts[1], machine_of.bios[g] = facts[2];
        machine_of.primary[g] = MOST;
    } else if (machine_of.sig[package] != facts[0] || machine_of.flags[package] != facts[1]
               || machine_of.bios[package] != facts[2]) {
        return "disagree";
    }
    machine_of.lead[core] = MOST;
    machine_of.group_of_core[machine_of.cores++] = package;
    return NULL;
}

static const char *add_thread(const struct word *words, int count) {
    uint64_t thread, core;
    if (count != 4 || !is(words[2], "core")) {
        return "word";
    }
    if (!read_number(words[1], &thread) || thread > UINT16_MAX || !read_number(words[3], &core) || core > UINT16_MAX) {
        return "number";
    }
    if (machine_of.threads == MOST) {
        return "too-many";
    }
    if (thread != (uint64_t)machine_of.threads) {
        return "order";
    }
    if (core >= (uint64_t)machine_of.cores) {
        return "no-core";
    }
    int t = machine_of.threads++, g = machine_of.group_of_core[core];
    machine_of.core_of[t] = core;
    machine_of.lead[core] = machine_of.lead[core] == MOST ? t : machine_of.lead[core];
    machine_of.primary[g] = machine_of.primary[g] == MOST ? t : machine_of.primary[g];
    return NULL;
}

static const char *read_topology(struct bytes file, uint32_t *at) {
    struct text text = {(char *)file.at, (char *)file.at + file.len, 0}, line;
    struct word words[MOST_WORDS + 1];
    int count;
    *at = 0;
    if (file.len > TOPOLOGY_LIMIT) {
        return "too-long";
    }
    if (!next_line(&text, &line)) {
        return "head";
    }
    *at = line.number;
    count = split(line, words);
    if (count != 2 || !is(words[0], "ucode-topology") || (!is(words[1], "1") && !is(words[1], "2"))) {
        return "head";
    }
    machine_of.version = words[1].at[0] - '0';
    if (!next_line(&text, &line)) {
        *at = 0;
        return "word";
    }
    *at = line.number;
    count = split(line, words);
    if (count != 2 || !is(words[0], "vendor") || (!is(words[1], "intel") && !is(words[1], "amd"))) {
        return "word";
    }
    machine_of.amd = is(words[1], "amd");
    while (next_line(&text, &line)) {
        count = split(line, words);
        const char *cause = is(words[0], "core")  ? add_core(words, count)
                            : is(words[0], "cpu") ? add_thread(words, count)
                                                  : "word";
        if (cause) {
            *at = line.number;
            return cause;
        }
    }
    *at = 0;
    for (int core = 0; core < machine_of.cores; core++) {
        if (machine_of.lead[core] == MOST) {
            return "empty-core";
        }
    }
    return machine_of.threads ? NULL : "empty-core";
}

/* ---- The script ---- */

enum verb { BOOT, ONLINE_VERB, OFFLINE_VERB, SUSPEND, RESUME, REFUSE, ACCEPT, LOAD, LOAD_FORCE, VERBS };

static const char *const verbs[] = {"boot", "online", "offline", "suspend", "resume", "refuse", "accept", "load",
                                    "load-force"};

struct command {
    enum verb verb;
    uint32_t number, names;
    struct word name[MOST_FILES];
    size_t from, beats;
};

static struct {
    uint64_t blocks, patience;
    struct command *commands;
    struct beat *beats;
    size_t count, beat_count, beat_room;
} script = {.blocks = 4096, .patience = 10000000};

static void add_beat(unsigned event, unsigned number) {
    if (script.beat_count == script.beat_room) {
        script.beat_room = script.beat_room ? 2 * script.beat_room : 4096;
        script.beats = need(realloc(script.beats, script.beat_room * sizeof *script.beats));
    }
    script.beats[script.beat_count++] = (struct beat){event, number};
}

static int event_of(char letter) {
    switch (letter) {
    case 's':
        return STEP;
    case 't':
        return TIMED_OUT;
    case 'n':
        return FOREIGN_NMI;
    case 'r':
        return RUN;
    case '*':
        return ROUNDS;
    default:
        return -1;
    }
}

static const char *const line_faults[] = {"word", "number", "range", "too-many", NULL};

/* Reads a line of beats: of all its words the fault that is checked first. */
static const char *read_beats(struct text line, uint64_t *events) {
    unsigned fault = 4;
    struct word word;
    while (fault > 0 && next_word(&line, &word)) {
        int event = event_of(word.at[0]);
        unsigned found = 4;
        uint64_t number;
        if (event < 0) {
            return "word";
        }
        if (!read_number((struct word){word.at + 1, word.len - 1}, &number)) {
            found = 1;
        } else if (event == ROUNDS ? number < 1 || number > UINT16_MAX : number >= (uint64_t)machine_of.threads) {
            found = 2;
        } else if ((*events += event == ROUNDS ? number * machine_of.threads : 1) > MOST_EVENTS) {
            found = 3;
        }
        fault = found < fault ? found : fault;
        if (fault == 4) {
            add_beat(event, number);
        }
    }
    return line_faults[fault];
}

static const char *read_verb(const struct word *words, int count, struct command *command) {
    int verb = 0;
    while (verb < VERBS && !is(words[0], verbs[verb])) {
        verb++;
    }
    bool names = verb == BOOT || verb == LOAD || verb == LOAD_FORCE;
    bool alone = verb == SUSPEND || verb == RESUME;
    if (verb == VERBS || (names ? count > MOST_FILES + 1 || (verb != BOOT && count < 2) : count != (alone ? 1 : 2))) {
        return "word";
    }
    *command = (struct command){.verb = verb, .from = script.beat_count};
    for (int k = 1; names && k < count; k++) {
        if (!is_utf8(words[k])) {
            return "word";
        }
        command->name[command->names++] = words[k];
    }
    if (!names && !alone) {
        uint64_t number, limit = verb == REFUSE || verb == ACCEPT ? machine_of.cores : machine_of.threads;
        if (!read_number(words[1], &number)) {
            return "number";
        }
        if (number >= limit) {
            return "range";
        }
        command->number = number;
    }
    return script.count == MOST_COMMANDS ? "too-many" : NULL;
}

static const char *read_setting(struct word word, uint64_t least, uint64_t most, uint64_t *value) {
    if (!read_number(word, value)) {
        return "number";
    }
    return *value < least || *value > most ? "range" : NULL;
}

static const char *read_script(struct bytes file, uint32_t *at) {
    struct text text = {(char *)file.at, (char *)file.at + file.len, 0}, line = {0};
    struct word words[MOST_WORDS + 1];
    struct command *load = NULL;
    int settings = 0;
    uint32_t load_line = 0;
    uint64_t events = 0;
    *at = 0;
    if (file.len > SCRIPT_LIMIT) {
        return "too-long";
    }
    bool is_there = next_line(&text, &line);
    *at = line.number;
    if (!is_there || split(line, words) != 2 || !is(words[0], "ucode-script") || !is(words[1], "1")) {
        *at = is_there ? line.number : 0;
        return "head";
    }
    script.commands = need(malloc((MOST_COMMANDS + 1) * sizeof *script.commands));
    while (next_line(&text, &line)) {
        const char *cause = NULL;
        int count = split(line, words);
        if (load && count == 1 && is(words[0], "end")) {
            load->beats = script.beat_count - load->from;
            load = NULL;
        } else if (load) {
            cause = read_beats(line, &events);
        } else if (count == 2 && settings < 1 && is(words[0], "pool")) {
            settings = 1;
            cause = read_setting(words[1], 1, 65536, &script.blocks);
        } else if (count == 2 && settings < 2 && is(words[0], "patience")) {
            settings = 2;
            cause = read_setting(words[1], 0, UINT32_MAX, &script.patience);
        } else {
            struct command *command = &script.commands[script.count];
            cause = read_verb(words, count, command);
            settings = 2;
            script.count += !cause;
            if (!cause && command->verb >= LOAD) {
                load = command, load_line = line.number, events = 0;
            }
        }
        if (cause) {
            *at = line.number;
            return cause;
        }
    }
    *at = load_line;
    return load ? "no-end" : NULL;
}
