/* The plain rendezvous on threads that really run, for the simulator that includes it behind rendezvous.h: the control
   words are atomic, and each thread has a worker of its own that steps it to its end. A step is one operation on one
   word; where it has to wait, the worker lets others run. Nothing is printed. At the end the words are those of `now`.
   */
#include <pthread.h>
#include <sched.h>
#include <stdatomic.h>

static struct {
    _Atomic uint64_t arrive, off_in, decide;
    _Atomic uint64_t mode[MOST], ctrl[MOST], nmi[MOST], rev[MOST], res[MOST];
} shared;

static uint32_t patience;

/* What the word held, which has the new value now only where it held what was wanted. */
static uint64_t swap_if(_Atomic uint64_t *word, uint64_t wanted, uint64_t value) {
    atomic_compare_exchange_strong(word, &wanted, value);
    return wanted;
}

static bool live_poll(struct local *local) {
    local->polls += local->polls != UINT32_MAX;
    return false;
}

static bool live_holds_offer(int group) {
    return shared.rev[group] == (plan.offered[group] ? plan.offer[group] : plan.first[group]);
}

static bool live_outside(int thread, struct local *local) {
    if (plan.kind[thread] == ONLINE) {
        atomic_exchange(&shared.mode[thread], 1);
        local->phase = ARRIVING;
        if (thread == 0) {
            loop_at(local, KICKING, plan.offline_from[0], ARRIVING);
        }
        return true;
    }
    uint64_t found = swap_if(&shared.nmi[thread], 1, 2);
    if (found == 1) {
        local->phase = OFFLINE_COUNT;
    } else if (found == 3) {
        local->phase = WITHDRAWN;
    }
    return found == 1 || found == 3;
}

static bool live_release(int thread, struct local *local, bool late) {
    uint64_t found = late ? swap_if(&shared.ctrl[thread], 0, 3) : shared.ctrl[thread];
    if (found == 0 && late) {
        local->phase = HALTED;
    } else if (found == 0) {
        return live_poll(local);
    } else {
        local->phase = local->phase == OFFLINE_HOLD ? LEAVING : found == 1 ? SIBLING_CHECK : SIBLING_COPY;
    }
    return true;
}

static bool live_decision(int thread, struct local *local, bool late) {
    uint64_t found = late ? swap_if(&shared.decide, 0, 3 + thread) : shared.decide;
    if (found == 0 && !late) {
        return live_poll(local);
    }
    if (found == 1) {
        go(thread, local);
    } else {
        drop(thread, local);
    }
    return true;
}

static bool live_offline(int thread, struct local *local, bool late) {
    if (late) {
        swap_if(&shared.decide, 0, 2);
        drop(thread, local);
    } else if (shared.off_in == (uint64_t)plan.offline) {
        local->phase = ARRIVING;
    } else {
        return live_poll(local);
    }
    return true;
}

/* One step, or a timeout; false where the thread has to wait. */
static bool live_step(int thread, struct local *local, bool late) {
    int group = plan.group[thread], at = local->at;
    switch (local->phase) {
    case OUTSIDE:
        return live_outside(thread, local);
    case KICKING:
        atomic_exchange(&shared.nmi[at], 1);
        kick_next(local, plan.offline_from[at + 1]);
        return true;
    case OFFLINE_WAIT:
        return live_offline(thread, local, late);
    case ARRIVING:
        if (atomic_fetch_sub(&shared.arrive, 1) == 1) {
            local->phase = DECIDING;
        } else {
            wait_in(local, WAITING);
        }
        return true;
    case DECIDING:
        if (swap_if(&shared.decide, 0, 1) == 0) {
            go(thread, local);
        } else {
            drop(thread, local);
        }
        return true;
    case WAITING:
        return live_decision(thread, local, late);
    case READING:
        if (plan.offered[group] && shared.rev[group] < plan.offer[group]) {
            local->phase = BEGINNING;
        } else {
            local->mine = CURRENT;
            local->phase = REPORTING;
        }
        return true;
    case BEGINNING:
        atomic_exchange(&shared.mode[thread], 2);
        local->phase = WRITING;
        return true;
    case WRITING:
        atomic_exchange(&shared.rev[group],
                        plan.offered[group] && !plan.refuses[group] ? plan.offer[group] : plan.first[group]);
        local->phase = CHECKING;
        return true;
    case CHECKING:
        local->mine = live_holds_offer(group) ? UPDATED : ERROR;
        local->phase = REPORTING;
        return true;
    case REPORTING:
        atomic_exchange(&shared.res[group], local->mine);
        loop_at(local, FREEING, plan.sibling_after[thread], LEAVING);
        return true;
    case FREEING:
        swap_if(&shared.ctrl[at], 0, local->mine == UPDATED ? 1 : 2);
        loop_at(local, FREEING, plan.sibling_after[at], LEAVING);
        return true;
    case SIBLING_WAIT:
    case OFFLINE_HOLD:
        return live_release(thread, local, late);
    case SIBLING_CHECK:
        local->mine = live_holds_offer(group) ? OKAY : ERROR;
        local->phase = LEAVING;
        return true;
    case SIBLING_COPY:
        local->mine = shared.res[group];
        local->phase = LEAVING;
        return true;
    case WITHDRAWING:
        if (swap_if(&shared.nmi[at], 1, 3) == 1) {
            loop_at(local, WITHDRAWING, plan.offline_from[at + 1], LEAVING);
        } else {
            local->phase = RELEASING;
        }
        return true;
    case RELEASING:
        swap_if(&shared.ctrl[at], 0, 2);
        loop_at(local, WITHDRAWING, plan.offline_from[at + 1], LEAVING);
        return true;
    case OFFLINE_COUNT:
        atomic_fetch_add(&shared.off_in, 1);
        wait_in(local, OFFLINE_HOLD);
        return true;
    default: /* LEAVING */
        atomic_exchange(&shared.mode[thread], 8 + local->mine);
        local->phase = LEFT;
        return true;
    }
}

static bool may_wait(int phase) {
    return phase == OFFLINE_WAIT || phase == WAITING || phase == SIBLING_WAIT || phase == OFFLINE_HOLD;
}

static void *live_work(void *number) {
    int thread = (int)(intptr_t)number;
    struct local local = now.local[thread];
    while (local.phase < LEFT) {
        if (!live_step(thread, &local, may_wait(local.phase) && local.polls == patience)) {
            sched_yield();
        }
    }
    return NULL;
}

static void play_live(void) {
    pthread_t workers[MOST];
    begin();
    shared.arrive = now.arrive;
    shared.off_in = shared.decide = 0;
    for (int t = 0; t < plan.threads; t++) {
        shared.mode[t] = shared.ctrl[t] = shared.nmi[t] = 0;
    }
    for (int g = 0; g < plan.groups; g++) {
        shared.rev[g] = plan.first[g];
        shared.res[g] = 0;
    }
    for (intptr_t t = 1; t < plan.threads; t++) {
        if (pthread_create(&workers[t], NULL, live_work, (void *)t)) {
            exit(7);
        }
    }
    live_work(0);
    for (int t = plan.threads - 1; t > 0; t--) {
        pthread_join(workers[t], NULL);
    }
    now.decide = shared.decide;
    for (int t = 0; t < plan.threads; t++) {
        now.mode[t] = shared.mode[t];
        now.ctrl[t] = shared.ctrl[t];
        now.nmi[t] = shared.nmi[t];
    }
    for (int g = 0; g < plan.groups; g++) {
        now.rev[g] = shared.rev[g];
    }
}
