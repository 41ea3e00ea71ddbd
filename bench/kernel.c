/* Document 01 in plain C. The state is taken to be sound: nothing here tests it. */
#include "kernel.h"

enum {
    LARGEST_PRIORITY = PRIORITIES - 1,
    LARGEST_COUNT = 255,
    LARGEST_LENGTH = 65535,
    MICROSECONDS_A_TICK = 1000
};

/* The highest member of a set that is not empty. */
static uint8_t highest(uint32_t set)
{
#ifdef __GNUC__ /* one instruction, where C11 itself has only a loop */
    return (uint8_t)(31 - __builtin_clz(set));
#else
    uint8_t member = 0;

    while ((set >>= 1) != 0)
        member++;
    return member;
#endif
}

/* The lowest member of a set that is not empty. */
static uint8_t lowest(uint32_t set)
{
#ifdef __GNUC__
    return (uint8_t)__builtin_ctz(set);
#else
    uint8_t member = 0;

    for (; (set & 1) == 0; set >>= 1)
        member++;
    return member;
#endif
}

/* ---- queues */

/* Puts a thread at the back of the queue of its priority. */
static void push_back(struct kernel *k, struct queues *queues, uint8_t id)
{
    uint8_t priority = k->thread[id].priority;
    struct queue *queue = &queues->at[priority];

    if (queues->occupied >> priority & 1)
        k->thread[queue->last].next = id;
    else
        queue->first = id;
    queue->last = id;
    queues->occupied |= (uint16_t)(1u << priority);
}

/* Puts a thread at the front of the queue of its priority. */
static void push_front(struct kernel *k, struct queues *queues, uint8_t id)
{
    uint8_t priority = k->thread[id].priority;
    struct queue *queue = &queues->at[priority];

    if (queues->occupied >> priority & 1)
        k->thread[id].next = queue->first;
    else
        queue->last = id;
    queue->first = id;
    queues->occupied |= (uint16_t)(1u << priority);
}

/* Takes out the highest, earliest thread of queues that are not all empty. */
static uint8_t pop_first(struct kernel *k, struct queues *queues)
{
    uint8_t priority = highest(queues->occupied);
    struct queue *queue = &queues->at[priority];
    uint8_t id = queue->first;

    if (id == queue->last)
        queues->occupied &= (uint16_t)~(1u << priority);
    else
        queue->first = k->thread[id].next;
    return id;
}

/* ---- where a thread stands */

/* Notes where a thread stands, as a saved record tells it. */
static void note(struct kernel *k, uint8_t id, uint8_t state, uint8_t object)
{
    k->thread[id].state = state;
    k->thread[id].object = object;
}

/* Makes a thread ready, behind its equals. */
static void make_ready(struct kernel *k, uint8_t id)
{
    note(k, id, READY, NONE);
    push_back(k, &k->ready, id);
}

/* Lets a thread wait for a mutex. */
static void wait_for_mutex(struct kernel *k, uint8_t id, uint8_t mutex)
{
    note(k, id, FOR_MUTEX, mutex);
    push_back(k, &k->mutex[mutex].waiters, id);
}

/* Runs the first of the highest ready queue; idle never waits, so there is one. */
static void run_first(struct kernel *k)
{
    k->running = pop_first(k, &k->ready);
    note(k, k->running, RUNNING, NONE);
}

/* The rule after each accepted call: wait, else preempt, else at a tick rotate. */
static void choose(struct kernel *k, bool at_tick)
{
    uint8_t id = k->running;
    uint32_t rivals = k->ready.occupied >> k->thread[id].priority; /* bit 0: its equals; above: its betters */

    if (k->thread[id].state == RUNNING) {
        if (rivals > 1) {
            note(k, id, READY, NONE);
            push_front(k, &k->ready, id);
        } else if (at_tick && rivals == 1) {
            make_ready(k, id);
        } else {
            return;
        }
    }
    run_first(k);
}

/* ---- owning a mutex */

/* Makes a thread in no queue the owner; none above the ceiling gets here, so the ceiling is its priority. */
static void own(struct kernel *k, uint8_t id, uint8_t mutex)
{
    struct mutex *m = &k->mutex[mutex];
    struct thread *t = &k->thread[id];

    m->owner = id;
    m->count = 1;
    t->owned |= (uint16_t)(1u << mutex);
    t->priority = m->ceiling;
}

/* Ends a thread's owning; its priority is found anew, since releases come in any order. */
static void disown(struct kernel *k, uint8_t id, uint8_t mutex)
{
    struct thread *t = &k->thread[id];
    uint32_t rest;

    t->owned &= (uint16_t)~(1u << mutex);
    t->priority = t->base;
    for (rest = t->owned; rest != 0; rest &= rest - 1) {
        uint8_t ceiling = k->mutex[lowest(rest)].ceiling;
        if (ceiling > t->priority)
            t->priority = ceiling;
    }
}

/* Takes a mutex from its owner and hands it to its highest, earliest waiter, or frees it. */
static void hand_on(struct kernel *k, uint8_t mutex)
{
    struct mutex *m = &k->mutex[mutex];

    disown(k, m->owner, mutex);
    if (m->waiters.occupied != 0) {
        uint8_t id = pop_first(k, &m->waiters);
        own(k, id, mutex);
        make_ready(k, id);
    } else {
        m->owner = NONE;
        m->count = 0;
    }
}

/* Signals a condition variable once; the number of threads that left it, 0 or 1. */
static uint8_t signal_once(struct kernel *k, uint8_t condition)
{
    struct condition *c = &k->condition[condition];
    uint8_t mutex = c->tied;
    uint8_t id;

    if (c->waiters.occupied == 0)
        return 0;
    id = pop_first(k, &c->waiters);
    if (c->waiters.occupied == 0)
        c->tied = NONE;
    if (k->mutex[mutex].owner == NONE) {
        own(k, id, mutex);
        make_ready(k, id);
    } else {
        wait_for_mutex(k, id, mutex);
    }
    return 1;
}

/* ---- the wheel */

/* Hangs a timer on the spoke that is visited so many ticks from now. */
static void hang(struct kernel *k, uint8_t id, uint32_t ticks)
{
    struct timer *t = &k->timer[id];

    t->spoke = (uint8_t)((k->tick_count + ticks) % SPOKES);
    t->turns = (uint16_t)((ticks - 1) / SPOKES);
    k->spoke[t->spoke] |= UINT32_C(1) << id;
}

/* Takes a timer off its spoke. */
static void unhang(struct kernel *k, uint8_t id)
{
    k->spoke[k->timer[id].spoke] &= ~(UINT32_C(1) << id);
}

/* The ticks left to a timer that runs. */
static uint16_t left_to(const struct kernel *k, const struct timer *t)
{
    return (uint16_t)(t->turns * SPOKES + (t->spoke - 1 - k->tick_count) % SPOKES + 1);
}

/* Stops a timer that runs. */
static void stop(struct kernel *k, uint8_t id)
{
    unhang(k, id);
    k->timer[id] = (struct timer){ .state = NOT_RUNNING, .condition = NONE };
}

/* Visits a timer on the spoke of this tick; the number of timers that expired, 0 or 1. */
static uint8_t visit(struct kernel *k, uint8_t id)
{
    struct timer *t = &k->timer[id];

    if (t->turns != 0) {
        t->turns--;
        return 0;
    }
    signal_once(k, t->condition);
    if (t->state == PERIODIC) {
        unhang(k, id);
        hang(k, id, t->length);
    } else {
        stop(k, id);
    }
    return 1;
}

/* ---- the thirteen calls: each gives its answer number, and changes nothing unless that is DONE */

/* Call 1. */
static uint8_t call_start(struct kernel *k)
{
    if (k->started)
        return ALREADY_STARTED;
    k->started = true;
    run_first(k);
    return DONE;
}

/* Adds a thread, ready; its id. */
static uint8_t add_thread(struct kernel *k, uint8_t base)
{
    uint8_t id = k->threads++;

    k->thread[id] = (struct thread){ .base = base, .priority = base };
    make_ready(k, id);
    return id;
}

/* Whether a number may be a base priority or a ceiling. */
static bool is_priority(uint8_t number)
{
    return 1 <= number && number <= LARGEST_PRIORITY;
}

/* Call 2. */
static uint8_t call_create_thread(struct kernel *k, uint8_t base, uint16_t *given)
{
    if (!is_priority(base))
        return OUT_OF_RANGE;
    if (k->threads == THREADS)
        return TABLE_FULL;
    *given = add_thread(k, base);
    return DONE;
}

/* Call 3. */
static uint8_t call_create_mutex(struct kernel *k, uint8_t ceiling, uint16_t *given)
{
    if (!is_priority(ceiling))
        return OUT_OF_RANGE;
    if (k->mutexes == MUTEXES)
        return TABLE_FULL;
    *given = k->mutexes++;
    k->mutex[*given] = (struct mutex){ .ceiling = ceiling, .owner = NONE };
    return DONE;
}

/* Call 4. */
static uint8_t call_create_condition(struct kernel *k, uint16_t *given)
{
    if (k->conditions == CONDITIONS)
        return TABLE_FULL;
    *given = k->conditions++;
    k->condition[*given] = (struct condition){ .tied = NONE };
    return DONE;
}

/* Call 5. */
static uint8_t call_create_timer(struct kernel *k, uint16_t *given)
{
    if (k->timers == TIMERS)
        return TABLE_FULL;
    *given = k->timers++;
    k->timer[*given] = (struct timer){ .state = NOT_RUNNING, .condition = NONE };
    return DONE;
}

/* Call 6. */
static uint8_t call_acquire(struct kernel *k, uint8_t mutex)
{
    uint8_t caller = k->running;
    struct mutex *m;

    if (mutex >= k->mutexes)
        return NO_SUCH_ID;
    if (caller == IDLE)
        return IDLE_CALLS;
    m = &k->mutex[mutex];
    if (m->owner == caller) {
        if (m->count == LARGEST_COUNT)
            return COUNT_FULL;
        m->count++;
        return DONE;
    }
    if (k->thread[caller].priority > m->ceiling)
        return ABOVE_CEILING;
    if (m->owner == NONE)
        own(k, caller, mutex);
    else
        wait_for_mutex(k, caller, mutex);
    return DONE;
}

/* Call 7. */
static uint8_t call_release(struct kernel *k, uint8_t mutex)
{
    struct mutex *m;

    if (mutex >= k->mutexes)
        return NO_SUCH_ID;
    m = &k->mutex[mutex];
    if (m->owner != k->running)
        return NOT_OWNER;
    if (m->count > 1)
        m->count--;
    else
        hand_on(k, mutex);
    return DONE;
}

/* Call 8. */
static uint8_t call_wait(struct kernel *k, uint8_t condition, uint8_t mutex)
{
    uint8_t caller = k->running;
    struct condition *c;

    if (condition >= k->conditions || mutex >= k->mutexes)
        return NO_SUCH_ID;
    if (caller == IDLE)
        return IDLE_CALLS;
    if (k->mutex[mutex].owner != caller)
        return NOT_OWNER;
    if (k->mutex[mutex].count > 1 || k->thread[caller].owned != 1u << mutex)
        return OWNS_MORE;
    c = &k->condition[condition];
    if (c->tied != NONE && c->tied != mutex)
        return TIED_ELSEWHERE;
    hand_on(k, mutex);
    c->tied = mutex;
    note(k, caller, ON_CONDITION, condition);
    push_back(k, &c->waiters, caller);
    return DONE;
}

/* Call 9. */
static uint8_t call_signal(struct kernel *k, uint8_t condition, uint16_t *given)
{
    if (condition >= k->conditions)
        return NO_SUCH_ID;
    *given = signal_once(k, condition);
    return DONE;
}

/* Call 10. */
static uint8_t call_broadcast(struct kernel *k, uint8_t condition, uint16_t *given)
{
    uint8_t left = 0;

    if (condition >= k->conditions)
        return NO_SUCH_ID;
    while (signal_once(k, condition) != 0)
        left++;
    *given = left;
    return DONE;
}

/* The ticks to the first expiry: rounded up, and one for the tick in progress. */
static uint32_t ticks_of(uint32_t microseconds)
{
    return microseconds / MICROSECONDS_A_TICK + (microseconds % MICROSECONDS_A_TICK != 0) + 1;
}

/* Call 11. */
static uint8_t call_start_timer(struct kernel *k, struct call call)
{
    uint32_t first = ticks_of(call.v);
    struct timer *t;

    if (call.a >= k->timers || call.b >= k->conditions)
        return NO_SUCH_ID;
    if (first > LARGEST_LENGTH)
        return OUT_OF_RANGE;
    t = &k->timer[call.a];
    if (t->state != NOT_RUNNING)
        return TIMER_RUNS;
    t->state = call.kind == 0 ? ONE_SHOT : PERIODIC;
    t->condition = call.b;
    /* A periodic timer repeats a tick sooner, but never after none. */
    t->length = (uint16_t)(t->state == PERIODIC && first > 1 ? first - 1 : first);
    hang(k, call.a, first);
    return DONE;
}

/* Call 12. */
static uint8_t call_stop_timer(struct kernel *k, uint8_t timer, uint16_t *given)
{
    if (timer >= k->timers)
        return NO_SUCH_ID;
    if (k->timer[timer].state == NOT_RUNNING)
        return TIMER_STOPPED;
    *given = left_to(k, &k->timer[timer]);
    stop(k, timer);
    return DONE;
}

/* Call 13. */
static uint8_t call_tick(struct kernel *k, uint16_t *given)
{
    uint8_t expired = 0;
    uint32_t rest;

    k->tick_count++;
    /* A copy of the spoke, since a period of 64 ticks hangs a timer on it again. */
    for (rest = k->spoke[k->tick_count % SPOKES]; rest != 0; rest &= rest - 1)
        expired += visit(k, lowest(rest));
    *given = expired;
    return DONE;
}

/* ---- the step */

/* Does the call's own work, the stopped kernel's refusal aside; its answer number. */
static uint8_t perform(struct kernel *k, struct call call, uint16_t *given)
{
    switch (call.code) {
    case START:
        return call_start(k);
    case CREATE_THREAD:
        return call_create_thread(k, call.a, given);
    case CREATE_MUTEX:
        return call_create_mutex(k, call.a, given);
    case CREATE_CONDITION:
        return call_create_condition(k, given);
    case CREATE_TIMER:
        return call_create_timer(k, given);
    case ACQUIRE:
        return call_acquire(k, call.a);
    case RELEASE:
        return call_release(k, call.a);
    case WAIT:
        return call_wait(k, call.a, call.b);
    case SIGNAL:
        return call_signal(k, call.a, given);
    case BROADCAST:
        return call_broadcast(k, call.a, given);
    case START_TIMER:
        return call_start_timer(k, call);
    case STOP_TIMER:
        return call_stop_timer(k, call.a, given);
    default:
        return call_tick(k, given);
    }
}

/* Does a call that decode has passed. */
void step(struct kernel *k, struct call call, struct answer *answer)
{
    uint16_t given = NONE;
    uint8_t number = STOPPED;

    if (k->started || call.code < ACQUIRE)
        number = perform(k, call, &given);
    if (number == DONE && k->started)
        choose(k, call.code == TICK);
    *answer = (struct answer){ .number = number, .given = given, .running = k->running };
}

/* Takes a row apart into its call; false for a wrong form. */
bool decode(const uint8_t row[ROW], struct call *call)
{
    enum { A = 1, B = 2, KIND = 4, V = 8 };
    static const uint8_t named[TICK + 1] = {
        [CREATE_THREAD] = A, [CREATE_MUTEX] = A, [ACQUIRE] = A, [RELEASE] = A, [WAIT] = A | B, [SIGNAL] = A,
        [BROADCAST] = A, [START_TIMER] = A | B | KIND | V, [STOP_TIMER] = A
    };
    unsigned used;

    *call = (struct call){
        .code = row[0], .a = row[1], .b = row[2], .kind = row[3],
        .v = (uint32_t)row[4] | (uint32_t)row[5] << 8 | (uint32_t)row[6] << 16 | (uint32_t)row[7] << 24
    };
    if (call->code < START || call->code > TICK || call->kind > 1)
        return false;
    used = (call->a != 0 ? A : 0) | (call->b != 0 ? B : 0) | (call->kind != 0 ? KIND : 0) | (call->v != 0 ? V : 0);
    return (used & ~(unsigned)named[call->code]) == 0;
}

/* Does the call of a row, or answers 17. */
void step_row(struct kernel *k, const uint8_t row[ROW], struct answer *answer)
{
    struct call call;

    if (decode(row, &call))
        step(k, call, answer);
    else
        *answer = (struct answer){ .number = WRONG_FORM, .given = NONE, .running = k->running };
}

/* Makes the kernel that document 01 begins with. */
void boot(struct kernel *k)
{
    *k = (struct kernel){ .running = NONE };
    add_thread(k, 0);
}
