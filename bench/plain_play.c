/* Plays a session as `ucode play TOPOLOGY SCRIPT` and `ucode gen NUMBER` do, and prints the same bytes: plain C that
   makes the same checks, without a contract. What it prints is handed on in blocks of 65,536 bytes. Compiled with LIVE,
   its `play` does what `ucode_live TOPOLOGY SCRIPT` does, and hands on behind each command. */
#include "plain_text.h"
#include "plain_files.h"
#ifdef LIVE
#include "live_rounds.h"
#endif

/* ---- The region of patches, in the order of their blocks ---- */

static struct patch *pool, *cached[MOST];

static bool put(struct entry *entry) {
    uint32_t blocks = (entry->len + 1023) / 1024, first = 0;
    struct patch **at = &pool;
    while (*at && (*at)->first - first < blocks) {
        first = (*at)->first + (*at)->blocks;
        at = &(*at)->next;
    }
    if (!*at && script.blocks - first < blocks) {
        return false;
    }
    struct patch *patch = need(malloc(sizeof *patch + entry->len));
    *patch = (struct patch){*at, first, blocks, entry->rev, false};
    memcpy(patch->bytes, entry->bytes, entry->len);
    *at = entry->patch = patch;
    return true;
}

/* Frees what no group caches. */
static void sweep(void) {
    for (int g = 0; g < machine_of.groups; g++) {
        if (cached[g]) {
            cached[g]->stays = true;
        }
    }
    for (struct patch **at = &pool; *at;) {
        struct patch *patch = *at;
        if (patch->stays) {
            patch->stays = false;
            at = &patch->next;
        } else {
            *at = patch->next;
            free(patch);
        }
    }
}

static struct entry *offers[MOST];

/* Puts each offered entry once; where one does not fit, frees all of them, and answers. */
static bool put_offers(void) {
    for (int g = 0; g < machine_of.groups; g++) {
        if (offers[g] && !offers[g]->patch && !put(offers[g])) {
            sweep();
            say_number("answer pool-full ", (offers[g]->len + 1023) / 1024, "\n");
            return false;
        }
    }
    return true;
}

/* ---- The machine ---- */

enum { COLD, UP, SOFT_OFFLINE };
static enum { OFF, ON, ASLEEP } power;
static uint8_t state_of[MOST];
static bool remembered[MOST], refuses[MOST], group_was_up[MOST];
static uint32_t revision[MOST];
static bool is_short;

static void answer(const char *words) {
    is_short = is_short || strcmp(words, "done");
    line_end(add(add(add(line_begin(), "answer "), words), "\n"));
}

static void answer_number(const char *words, uint64_t number) {
    is_short = true;
    say_number(words, number, "\n");
}

static void bring_up(int t) {
    int g = machine_of.group_of_core[machine_of.core_of[t]];
    bool writes = !group_was_up[g] && cached[g] && cached[g]->rev > revision[g];
    group_was_up[g] = true;
    state_of[t] = UP;
    if (writes && !refuses[g]) {
        revision[g] = cached[g]->rev;
    }
    say_number("up ", t, " rev ");
    say_hex("", revision[g], !writes ? "\n" : refuses[g] ? " refused\n" : " wrote\n");
}

static enum status boot(const struct command *command) {
    if (power != OFF) {
        answer("booted");
        return DONE;
    }
    enum status status = read_files(command);
    if (status != DONE) {
        return status;
    }
    for (int g = 0; g < machine_of.groups; g++) {
        offers[g] = offer_of(g, revision[g], false);
    }
    if (!put_offers()) {
        is_short = true;
        return DONE;
    }
    power = ON;
    for (int g = 0; g < machine_of.groups; g++) {
        cached[g] = offers[g] ? offers[g]->patch : NULL;
    }
    for (int t = 0; t < machine_of.threads; t++) {
        bring_up(t);
    }
    answer("done");
    return DONE;
}

static void online(int t) {
    if (power != ON) {
        answer("powered-down");
    } else if (state_of[t] == UP) {
        answer_number("answer is-up ", t);
    } else {
        bring_up(t);
        answer("done");
    }
}

static void take_offline(int t) {
    if (power != ON) {
        answer("powered-down");
    } else if (t == 0) {
        answer("boot-thread");
    } else if (state_of[t] != UP) {
        answer_number("answer not-up ", t);
    } else {
        state_of[t] = SOFT_OFFLINE;
        answer("done");
    }
}

static void suspend(void) {
    if (power != ON) {
        answer("powered-down");
        return;
    }
    power = ASLEEP;
    for (int t = 0; t < machine_of.threads; t++) {
        remembered[t] = state_of[t] == UP;
        state_of[t] = COLD;
    }
    memcpy(revision, machine_of.bios, sizeof revision);
    memset(group_was_up, 0, sizeof group_was_up);
    answer("done");
}

static void resume(void) {
    if (power != ASLEEP) {
        answer("not-asleep");
        return;
    }
    power = ON;
    for (int t = 0; t < machine_of.threads; t++) {
        if (remembered[t]) {
            bring_up(t);
        }
    }
    answer("done");
}

/* ---- A load ---- */

static const char *end_of(int t) {
    return now.ctrl[t] == 3                                 ? "halted"
           : now.mode[t] >= 8                               ? results[now.mode[t] - 8]
           : plan.kind[t] == OFFLINE && now.nmi[t] == 3     ? "withdrawn"
                                                            : "unfinished";
}

static bool left_with(int t, unsigned result) {
    return now.ctrl[t] != 3 && now.mode[t] == 8 + result;
}

static enum status verdict(void) {
    int halted = MOST, unfinished = MOST, withdrawn = 0, failed = MOST;
    bool updated = false;
    for (int t = plan.threads - 1; t >= 0; t--) {
        if (plan.kind[t] != ABSENT) {
            const char *end = end_of(t);
            halted = !strcmp(end, "halted") ? t : halted;
            unfinished = !strcmp(end, "unfinished") ? t : unfinished;
            withdrawn += !strcmp(end, "withdrawn");
            updated = updated || left_with(t, UPDATED);
            failed = plan.primary[plan.group[t]] == t && left_with(t, ERROR) ? t : failed;
        }
    }
    if (halted < MOST) {
        answer_number("answer panicked ", halted);
        return PANICKED;
    }
    if (unfinished < MOST) {
        answer_number("answer unfinished ", unfinished);
        return SHORT;
    }
    if (now.decide == 2) {
        answer_number("answer offline-silent ", withdrawn);
    } else if (now.decide >= 3) {
        answer_number("answer timed-out ", now.decide - 3);
    } else if (failed < MOST) {
        answer_number(updated ? "answer incomplete " : "answer failed ", failed);
    } else {
        answer("done");
    }
    return DONE;
}

static void make_plan(const bool *takes_part) {
    plan.threads = machine_of.threads;
    plan.groups = machine_of.groups;
    for (int t = 0; t < plan.threads; t++) {
        plan.kind[t] = state_of[t] == UP ? ONLINE : state_of[t] == COLD ? ABSENT : OFFLINE;
        plan.group[t] = machine_of.group_of_core[machine_of.core_of[t]];
    }
    for (int g = 0; g < plan.groups; g++) {
        plan.primary[g] = machine_of.primary[g];
        plan.offered[g] = takes_part[g] && offers[g];
        plan.offer[g] = plan.offered[g] ? offers[g]->patch->rev : 0;
        plan.refuses[g] = refuses[g];
        plan.first[g] = revision[g];
    }
}

static void say_offers(void) {
    for (int core = 0; core < machine_of.cores; core++) {
        int g = machine_of.group_of_core[core];
        if (offers[g]) {
            say_number("offer core ", core, " entry ");
            say_number("", offers[g] - catalog.entries, " len ");
            say_number("", offers[g]->len, " rev ");
            say_hex("", offers[g]->rev, is_safe(offers[g], revision[g]) ? " safe\n" : "\n");
        }
    }
}

static void say_results(const bool *core_takes_part) {
    for (int t = 0; t < plan.threads; t++) {
        if (plan.kind[t] != ABSENT) {
            say_number("cpu ", t, " ");
            say(end_of(t));
            say("\n");
        }
    }
    for (int core = 0; core < machine_of.cores; core++) {
        if (core_takes_part[core]) {
            say_number("core ", core, " rev ");
            say_hex("", now.rev[machine_of.group_of_core[core]], "\n");
        }
    }
}

static enum status load(const struct command *command) {
    bool takes_part[MOST] = {0}, core_takes_part[MOST] = {0}, any = false;
    for (int t = 0; t < machine_of.threads; t++) {
        if (state_of[t] != COLD) {
            core_takes_part[machine_of.core_of[t]] = true;
            takes_part[machine_of.group_of_core[machine_of.core_of[t]]] = true;
        }
    }
    for (int t = 0; t < machine_of.threads; t++) {
        int core = machine_of.core_of[t], g = machine_of.group_of_core[core];
        if (state_of[t] != UP && ((takes_part[g] && machine_of.primary[g] == t)
                                  || (core_takes_part[core] && machine_of.lead[core] == t))) {
            answer_number("answer busy ", t);
            return DONE;
        }
    }
    enum status status = read_files(command);
    if (status != DONE) {
        return status;
    }
    for (int g = 0; g < machine_of.groups; g++) {
        offers[g] = takes_part[g] ? offer_of(g, revision[g], command->verb == LOAD_FORCE) : NULL;
        any = any || offers[g];
    }
    if (!any) {
        answer("not-found");
        return DONE;
    }
    if (!put_offers()) {
        is_short = true;
        return DONE;
    }
    say_offers();
    make_plan(takes_part);
#ifdef LIVE
    patience = script.patience;
    play_live();
#else
    play(script.beats + command->from, command->beats);
#endif
    for (int g = 0; g < plan.groups; g++) {
        revision[g] = now.rev[g];
        if (plan.offered[g] && revision[g] == plan.offer[g]) {
            cached[g] = offers[g]->patch;
        }
    }
    sweep();
    say_results(core_takes_part);
    return verdict();
}

/* ---- A session ---- */

static enum status run_command(const struct command *command) {
    switch (command->verb) {
    case BOOT:
        return boot(command);
    case ONLINE_VERB:
        online(command->number);
        return DONE;
    case OFFLINE_VERB:
        take_offline(command->number);
        return DONE;
    case SUSPEND:
        suspend();
        return DONE;
    case RESUME:
        resume();
        return DONE;
    case REFUSE:
    case ACCEPT:
        refuses[machine_of.group_of_core[command->number]] = command->verb == REFUSE;
        answer("done");
        return DONE;
    default:
        return load(command);
    }
}

static enum status run_session(void) {
    memcpy(revision, machine_of.bios, sizeof revision);
    for (size_t k = 0; k < script.count; k++) {
        const struct command *command = &script.commands[k];
        say_number("command ", k + 1, " ");
        say(verbs[command->verb]);
        if (command->verb == ONLINE_VERB || command->verb == OFFLINE_VERB || command->verb == REFUSE
            || command->verb == ACCEPT) {
            say_number(" ", command->number, "");
        }
        say("\n");
        enum status status = run_command(command);
#ifdef LIVE
        hand_on(held);
#endif
        if (status != DONE) {
            return status;
        }
    }
    return is_short ? SHORT : DONE;
}

static enum status say_line_fault(const char *words, uint32_t line, const char *cause) {
    say_number(words, line, " ");
    say(cause);
    say("\n");
    return BAD_INPUT;
}

static bool read_or_say(char *name, size_t limit, struct bytes *file) {
    struct word word = {name, strlen(name)};
    bool ok = read_file(word, limit, file);
    if (!ok) {
        say("error read ");
        say_name(word);
        say("\n");
    }
    return ok;
}

static enum status play_files(char *topology, char *text) {
    struct bytes file;
    uint32_t line;
    if (!read_or_say(topology, TOPOLOGY_LIMIT, &file)) {
        return READ_FAULT;
    }
    const char *cause = read_topology(file, &line);
    if (cause) {
        return say_line_fault("error topology line ", line, cause);
    }
    if (!read_or_say(text, SCRIPT_LIMIT, &file)) {
        return READ_FAULT;
    }
    cause = read_script(file, &line);
    return cause ? say_line_fault("error script line ", line, cause) : run_session();
}

/* ---- Generated input ---- */

static uint64_t seed;

static uint32_t draw(uint64_t *x) {
    *x = 6364136223846793005u * *x + 1442695040888963407u;
    return *x >> 33;
}

static void make_bundle(void) {
    uint64_t x = seed;
    bundle = (struct bytes){need(calloc(512, 2048)), 512 * 2048};
    for (uint8_t *at = bundle.at; at < bundle.at + bundle.len; at += 2048) {
        uint32_t words[512] = {1, 0, 0x07112023, 0, 0, 1};
        words[3] = 0x906e0 + draw(&x) % 16;
        words[6] = draw(&x) % 256;
        words[1] = 0x81 + draw(&x) % 64;
        for (int k = 12; k < 512; k++) {
            words[k] = draw(&x);
        }
        words[4] = -sum_of((uint8_t *)words, 2048);
        memcpy(at, words, 2048);
    }
}

static struct bytes made_topology(void) {
    uint64_t x = seed;
    char *text = need(malloc(65536)), *end = add(text, "ucode-topology 1\nvendor intel\n");
    for (int core = 0; core < 128; core++) {
        end = add_hex(add(add_number(add(end, "core "), core), " sig "), 0x906e0 + draw(&x) % 16);
        end = add_hex(add(end, " flags "), 1u << draw(&x) % 8);
        end = add(add_hex(add(end, " rev "), 0x80), "\n");
    }
    for (int t = 0; t < 256; t++) {
        end = add(add_number(add(add_number(add(end, "cpu "), t), " core "), t / 2), "\n");
    }
    return (struct bytes){(uint8_t *)text, end - text};
}

static struct bytes made_script(void) {
    uint64_t x = seed;
    char *text = need(malloc(65536)), *end = add(text, "ucode-script 1\nboot\n");
    for (int t = 1; t < 256; t += 2) {
        if (draw(&x) % 4 == 0) {
            end = add(add_number(add(end, "offline "), t), "\n");
        }
    }
    end = add(end, "load bundle.bin\n*5128\nend\n");
    return (struct bytes){(uint8_t *)text, end - text};
}

static enum status generate(void) {
    uint32_t line;
    make_bundle();
    if (read_topology(made_topology(), &line) || read_script(made_script(), &line)) {
        return BAD_INPUT;
    }
    tallies = true;
    enum status status = run_session();
    hand_on(held);
    tallies = false;
    say_number("gen ", seed, " lines ");
    say_number("", tallied, " last ");
    say_name((struct word){last, last_len});
    say("\n");
    return status;
}

int main(int count, char **words) {
    enum status status = USAGE;
    if (count == 4 && !strcmp(words[1], "play")) {
        status = play_files(words[2], words[3]);
    } else if (count == 3 && !strcmp(words[1], "gen")
               && read_number((struct word){words[2], strlen(words[2])}, &seed)) {
        status = generate();
    }
    hand_on(held);
    return status;
}
