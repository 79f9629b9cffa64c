/* A plain rendezvous, for the simulators beside it: a row of C for each phase, and the words of all threads in plain
   tables. The program that includes it says where a line is composed, by `line_begin`, and takes it, by `line_end`. */
#include <stdbool.h>
#include <stdint.h>
#include <string.h>

static inline char *line_begin(void);
static inline void line_end(char *end);

enum { MOST = 256 };

enum phase {
    OUTSIDE, KICKING, OFFLINE_WAIT, ARRIVING, DECIDING, WAITING, READING, BEGINNING, WRITING, CHECKING, REPORTING,
    FREEING, SIBLING_WAIT, SIBLING_CHECK, SIBLING_COPY, WITHDRAWING, RELEASING, OFFLINE_COUNT, OFFLINE_HOLD, LEAVING,
    LEFT, HALTED, WITHDRAWN, NOTHING
};
enum kind { ONLINE, OFFLINE, ABSENT };
enum result { NONE, UPDATED, OKAY, CURRENT, ERROR, TIMEOUT, GONE };
enum event { STEP, TIMED_OUT, FOREIGN_NMI, RUN, ROUNDS };

static const char *const results[] = {"error", "updated", "ok", "current", "error", "timeout", "offline"};

struct beat { uint16_t event, number; };
struct local { uint8_t phase, mine; uint16_t at; uint32_t polls; };

static struct {
    int threads, groups;
    uint8_t kind[MOST];
    uint16_t group[MOST], primary[MOST];
    bool offered[MOST], refuses[MOST];
    uint32_t offer[MOST], first[MOST];
    int offline;
    uint16_t offline_from[MOST + 1], sibling_after[MOST];
} plan;

static struct {
    uint64_t arrive, off_in, decide;
    uint64_t mode[MOST], ctrl[MOST], nmi[MOST], rev[MOST], res[MOST];
    struct local local[MOST];
    bool latched[MOST];
    int unfinished;
} now;

static char *add(char *end, const char *word) {
    size_t len = strlen(word);
    memcpy(end, word, len);
    return end + len;
}

static char *add_number(char *end, uint64_t number) {
    char digits[20];
    int at = sizeof digits;
    do {
        digits[--at] = '0' + number % 10;
        number /= 10;
    } while (number);
    memcpy(end, digits + at, sizeof digits - at);
    return end + (sizeof digits - at);
}

static char *add_hex(char *end, uint32_t number) {
    *end++ = '0';
    *end++ = 'x';
    for (int place = 28; place >= 0; place -= 4) {
        *end++ = "0123456789abcdef"[number >> place & 15];
    }
    return end;
}

static void print(int thread, const char *word) {
    line_end(add(add(add_number(line_begin(), thread), word), "\n"));
}

static void print_number(int thread, const char *word, uint32_t number) {
    line_end(add(add_number(add(add_number(line_begin(), thread), word), number), "\n"));
}

static void print_wrote(int thread, uint32_t group, uint32_t revision) {
    char *end = add_number(add(add_number(line_begin(), thread), " wrote "), group);
    line_end(add(add_hex(add(end, " "), revision), "\n"));
}

static void print_report(int thread, uint32_t group, int result) {
    char *end = add_number(add(add_number(line_begin(), thread), " report "), group);
    line_end(add(add(add(end, " "), results[result]), "\n"));
}

static void print_leave(int thread, int result) {
    line_end(add(add(add(add_number(line_begin(), thread), " leave "), results[result]), "\n"));
}

static uint64_t cas(uint64_t *word, uint64_t wanted, uint64_t value) {
    uint64_t found = *word;
    if (found == wanted) {
        *word = value;
    }
    return found;
}

/* To a loop's phase at that thread, or, where there is none, to the phase after the loop. */
static void loop_at(struct local *local, int phase, int thread, int after) {
    local->phase = thread < plan.threads ? phase : after;
    if (thread < plan.threads) {
        local->at = thread;
    }
}

static void wait_in(struct local *local, int phase) {
    local->phase = phase;
    local->polls = 0;
}

static void go(int thread, struct local *local) {
    if (plan.primary[plan.group[thread]] == thread) {
        local->phase = READING;
    } else {
        wait_in(local, SIBLING_WAIT);
    }
}

static void drop(int thread, struct local *local) {
    local->mine = TIMEOUT;
    local->phase = LEAVING;
    if (thread == 0) {
        loop_at(local, WITHDRAWING, plan.offline_from[0], LEAVING);
    }
}

static void poll(int thread, struct local *local) {
    local->polls += local->polls != UINT32_MAX;
    print(thread, " poll");
}

static void kick_next(struct local *local, int next) {
    loop_at(local, KICKING, next, OFFLINE_WAIT);
    if (local->phase == OFFLINE_WAIT) {
        local->polls = 0;
    }
}

static bool holds_offer(int group) {
    return now.rev[group] == (plan.offered[group] ? plan.offer[group] : plan.first[group]);
}

static void finish(struct local *local, int phase) {
    local->phase = phase;
    now.unfinished--;
}

static void outside(int thread, struct local *local, int event) {
    if (plan.kind[thread] == ONLINE) {
        now.mode[thread] = 1;
        local->phase = ARRIVING;
        if (thread == 0) {
            loop_at(local, KICKING, plan.offline_from[0], ARRIVING);
        }
        print(thread, " enter");
        return;
    }
    switch (cas(&now.nmi[thread], 1, 2)) {
    case 1:
        local->phase = OFFLINE_COUNT;
        print(thread, " enter");
        break;
    case 3:
        local->phase = WITHDRAWN;
        print(thread, event == FOREIGN_NMI ? " ordinary" : " idle");
        break;
    default:
        print(thread, event == FOREIGN_NMI ? " ordinary" : " poll");
    }
}

static void wait_for_release(int thread, struct local *local, int event) {
    uint64_t found = event == TIMED_OUT ? cas(&now.ctrl[thread], 0, 3) : now.ctrl[thread];
    if (found == 0 && event == TIMED_OUT) {
        finish(local, HALTED);
        print(thread, " halt");
    } else if (found == 0) {
        poll(thread, local);
    } else {
        local->phase = local->phase == OFFLINE_HOLD ? LEAVING : found == 1 ? SIBLING_CHECK : SIBLING_COPY;
        print(thread, " inner");
    }
}

static void wait_for_decision(int thread, struct local *local, int event) {
    uint64_t found = event == TIMED_OUT ? cas(&now.decide, 0, 3 + thread) : now.decide;
    if (found == 0 && event != TIMED_OUT) {
        poll(thread, local);
        return;
    }
    if (found == 1) {
        go(thread, local);
    } else {
        drop(thread, local);
    }
    print(thread, found == 0 ? " drop" : " inner");
}

static void wait_for_offline(int thread, struct local *local, int event) {
    if (event == TIMED_OUT) {
        uint64_t found = cas(&now.decide, 0, 2);
        drop(thread, local);
        print(thread, found == 0 ? " drop-kick" : " inner");
    } else if (now.off_in == (uint64_t)plan.offline) {
        local->phase = ARRIVING;
        print(thread, " inner");
    } else {
        poll(thread, local);
    }
}

static void ordinary(int thread) {
    now.latched[thread] = false;
    print(thread, " ordinary");
}

static void step(int thread, int event) {
    struct local *local = &now.local[thread];
    int group = plan.group[thread], at = local->at;
    uint64_t found;
    switch (local->phase) {
    case OUTSIDE:
        outside(thread, local, event);
        return;
    case KICKING:
        now.nmi[at] = 1;
        kick_next(local, plan.offline_from[at + 1]);
        print_number(thread, " kick ", at);
        return;
    case OFFLINE_WAIT:
        wait_for_offline(thread, local, event);
        return;
    case ARRIVING:
        if (now.arrive-- == 1) {
            local->phase = DECIDING;
        } else {
            wait_in(local, WAITING);
        }
        print(thread, " arrive");
        return;
    case DECIDING:
        found = cas(&now.decide, 0, 1);
        if (found == 0) {
            go(thread, local);
        } else {
            drop(thread, local);
        }
        print(thread, found == 0 ? " go" : " inner");
        return;
    case WAITING:
        wait_for_decision(thread, local, event);
        return;
    case READING:
        if (plan.offered[group] && now.rev[group] < plan.offer[group]) {
            local->phase = BEGINNING;
        } else {
            local->mine = CURRENT;
            local->phase = REPORTING;
        }
        print(thread, " inner");
        return;
    case BEGINNING:
        now.mode[thread] = 2;
        local->phase = WRITING;
        print_number(thread, " begin ", group);
        return;
    case WRITING:
        now.rev[group] = plan.offered[group] && !plan.refuses[group] ? plan.offer[group] : plan.first[group];
        local->phase = CHECKING;
        print_wrote(thread, group, now.rev[group]);
        return;
    case CHECKING:
        local->mine = holds_offer(group) ? UPDATED : ERROR;
        local->phase = REPORTING;
        print(thread, " inner");
        return;
    case REPORTING:
        now.res[group] = local->mine;
        loop_at(local, FREEING, plan.sibling_after[thread], LEAVING);
        print_report(thread, group, local->mine);
        return;
    case FREEING:
        found = cas(&now.ctrl[at], 0, local->mine == UPDATED ? 1 : 2);
        loop_at(local, FREEING, plan.sibling_after[at], LEAVING);
        if (found == 0) {
            print_number(thread, " free ", at);
        } else {
            print(thread, " inner");
        }
        return;
    case SIBLING_WAIT:
    case OFFLINE_HOLD:
        wait_for_release(thread, local, event);
        return;
    case SIBLING_CHECK:
        local->mine = holds_offer(group) ? OKAY : ERROR;
        local->phase = LEAVING;
        print(thread, " inner");
        return;
    case SIBLING_COPY:
        local->mine = now.res[group];
        local->phase = LEAVING;
        print(thread, " inner");
        return;
    case WITHDRAWING:
        if (cas(&now.nmi[at], 1, 3) == 1) {
            now.unfinished--;
            loop_at(local, WITHDRAWING, plan.offline_from[at + 1], LEAVING);
            print_number(thread, " withdraw ", at);
        } else {
            local->phase = RELEASING;
            print(thread, " inner");
        }
        return;
    case RELEASING:
        found = cas(&now.ctrl[at], 0, 2);
        loop_at(local, WITHDRAWING, plan.offline_from[at + 1], LEAVING);
        if (found == 0) {
            print_number(thread, " free ", at);
        } else {
            print(thread, " inner");
        }
        return;
    case OFFLINE_COUNT:
        now.off_in++;
        wait_in(local, OFFLINE_HOLD);
        print(thread, " arrive");
        return;
    case LEAVING:
        now.mode[thread] = 8 + local->mine;
        finish(local, LEFT);
        print_leave(thread, local->mine);
        return;
    default:
        if (local->phase == LEFT && now.latched[thread]) {
            ordinary(thread);
        } else {
            print(thread, " idle");
        }
    }
}

/* An NMI from elsewhere, or an attempt to run ordinary code. */
static void machine_action(int thread, int event) {
    int phase = now.local[thread].phase, kind = plan.kind[thread];
    bool held = phase != OUTSIDE && phase < LEFT, runs;
    if (held && event == FOREIGN_NMI) {
        now.latched[thread] = true;
        print(thread, " latched");
    } else if (held || (kind == OFFLINE && phase == OUTSIDE && event == FOREIGN_NMI)) {
        step(thread, event);
    } else {
        runs = kind == ONLINE ? phase != HALTED
               : event == FOREIGN_NMI ? phase == LEFT || phase == WITHDRAWN
                                      : phase == LEFT && now.latched[thread];
        if (runs) {
            ordinary(thread);
        } else {
            print(thread, " idle");
        }
    }
}

static void begin(void) {
    int next[MOST];
    memset(&now, 0, sizeof now);
    for (int g = 0; g < plan.groups; g++) {
        now.rev[g] = plan.first[g];
        next[g] = plan.threads;
    }
    plan.offline = 0;
    plan.offline_from[plan.threads] = plan.threads;
    for (int t = plan.threads - 1; t >= 0; t--) {
        int kind = plan.kind[t], group = plan.group[t];
        now.arrive += kind == ONLINE;
        now.unfinished += kind != ABSENT;
        now.local[t].phase = kind == ABSENT ? NOTHING : OUTSIDE;
        now.local[t].mine = kind == OFFLINE ? GONE : NONE;
        plan.offline += kind == OFFLINE;
        plan.offline_from[t] = kind == OFFLINE ? t : plan.offline_from[t + 1];
        plan.sibling_after[t] = next[group];
        next[group] = kind == ABSENT ? next[group] : t;
    }
}

static void play(const struct beat *beats, size_t count) {
    begin();
    for (size_t k = 0; k < count && now.unfinished; k++) {
        if (beats[k].event <= TIMED_OUT) {
            step(beats[k].number, beats[k].event);
        } else if (beats[k].event != ROUNDS) {
            machine_action(beats[k].number, beats[k].event);
        } else {
            for (int round = 0; round < beats[k].number && now.unfinished; round++) {
                for (int t = 0; t < plan.threads && now.unfinished; t++) {
                    step(t, STEP);
                }
            }
        }
    }
}
