/* The bench kernel of document 01 and the requests of document 02 that have landed, in plain C, in place: the baseline that the proved kernel is measured against. */
#ifndef TEHUAMOZO_BENCH_KERNEL_H
#define TEHUAMOZO_BENCH_KERNEL_H

#include <stdbool.h>
#include <stdint.h>

enum limit { THREADS = 32, PRIORITIES = 16, MUTEXES = 16, CONDITIONS = 16, TIMERS = 32, SPOKES = 64 };

/* IDLE is thread 0; NONE stands where there is no id, nothing given and no running thread. */
enum { IDLE = 0, NONE = 255, ROW = 8 };

enum code {
    START = 1, CREATE_THREAD, CREATE_MUTEX, CREATE_CONDITION, CREATE_TIMER, ACQUIRE, RELEASE,
    WAIT, SIGNAL, BROADCAST, START_TIMER, STOP_TIMER, TICK
};

/* Document 01's answer numbers; 1, 15 and 16 are about records, which are checked elsewhere. */
enum number {
    DONE = 0, STOPPED = 2, ALREADY_STARTED = 3, NO_SUCH_ID = 4, IDLE_CALLS = 5, OUT_OF_RANGE = 6,
    TABLE_FULL = 7, ABOVE_CEILING = 8, NOT_OWNER = 9, COUNT_FULL = 10, OWNS_MORE = 11,
    TIED_ELSEWHERE = 12, TIMER_RUNS = 13, TIMER_STOPPED = 14, WRONG_FORM = 17
};

/* The numbers of the saved record. */
enum thread_state { READY = 1, RUNNING, FOR_MUTEX, ON_CONDITION };
enum timer_state { NOT_RUNNING, ONE_SHOT, PERIODIC };

struct call {
    uint8_t code, a, b, kind;
    uint32_t v;
};

struct answer {
    uint16_t given;
    uint8_t number, running;
};

/* Linked through the threads; first and last mean something only while the queue's bit is in occupied. */
struct queue {
    uint8_t first, last;
};

struct queues {
    uint16_t occupied;
    struct queue at[PRIORITIES];
};

/* Priority and owned follow from base and the mutexes' owners: they are kept so that no call searches for them. */
struct thread {
    uint8_t base, priority, state, object, next;
    uint16_t owned;
};

struct mutex {
    uint8_t ceiling, owner, count;
    struct queues waiters;
};

struct condition {
    uint8_t tied;
    struct queues waiters;
};

struct timer {
    uint8_t state, condition, spoke;
    uint16_t length, turns;
};

struct kernel {
    uint32_t tick_count;
    bool started;
    uint8_t running;
    uint8_t threads, mutexes, conditions, timers;
    struct queues ready;
    struct thread thread[THREADS];
    struct mutex mutex[MUTEXES];
    struct condition condition[CONDITIONS];
    struct timer timer[TIMERS];
    uint32_t spoke[SPOKES];
};

/* Makes the kernel that document 01 begins with. */
void boot(struct kernel *k);

/* Takes a row apart into its call; false for a wrong form. */
bool decode(const uint8_t row[ROW], struct call *call);

/* Does a call that decode has passed. The call goes in a register and the answer's bytes straight to the caller. */
void step(struct kernel *k, struct call call, struct answer *answer);

/* Does the call of a row, or answers 17. */
void step_row(struct kernel *k, const uint8_t row[ROW], struct answer *answer);

#endif
