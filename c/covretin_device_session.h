/* SPDX-License-Identifier: Apache-2.0 */
/* Of covretin_device.h: what a session holds, its rings, each over a proved queue, and its calls. Private: no program includes this. All is
 * behind the session's lock, which is let go of while the device is called. */
#ifndef COVRETIN_DEVICE_SESSION_H
#define COVRETIN_DEVICE_SESSION_H

#include "covretin_channel_socket.h"
#include "covretin_device.h"
#include "covretin_device_memory.h"

#include <pthread.h>

/* What is polled for: the kick of a ring, by its number, or one of these. */
enum { SOCKET = COVRETIN_DEVICE_MAX_QUEUES, WAKE, STOP, TIMER, CHANNEL, CHANNEL_TIMER, MOST_READY };

/* What a ring signals: an eventfd; a pipe, opened anew; or a stream socket of the family AF_UNIX. */
struct bell {
    int fd; /* -1: none */
    bool is_pipe, is_socket;
};

/* Entries of a packed ring's area of the inflight region that a request has, by their links, and the free list behind them. */
struct kept {
    uint16_t head, last, num, behind;
};

struct ring {
    covretin_queue queue;
    covretin_vring place;
    uint16_t size; /* in descriptors; 0: not told yet */
    uint32_t base;
    bool has_base, is_enabled, is_started, is_packed;
    bool is_ending; /* nothing more is taken; it stops once its requests are done */
    bool is_broken; /* the driver broke a rule, */
    enum covretin_queue_error broken_by; /* which is still to be told */
    bool is_away;   /* it lies in no region */
    bool is_due;    /* to be looked at */
    bool is_quiet;  /* it is empty, and looked at before its driver is asked to tell of more: */
    uint64_t shows; /* what is mapped here, where it shows what is available (0: to be asked) */
    uint16_t shown; /* is not this any more then */
    enum { KICKS_UNKNOWN, KICKS_WANTED, KICKS_UNWANTED } kicks; /* as its driver was asked last */
    bool is_quick;  /* the last request came soon after it was empty, */
    uint64_t empty; /* which was at this time, in nanoseconds */
    int kick;       /* -1: none */
    struct bell call, error;
    struct space *space; /* in which the ring is mapped */
    covretin_range table; /* where its descriptors are mapped, */
    uint64_t used;       /* and the used ring of a split queue */
    uint16_t available;  /* how many heads may be read before its index is read again, */
    uint16_t heads[COVRETIN_DEVICE_BURST]; /* and those that were, */
    size_t head_at, head_count;            /* of which these are still to be taken */
    size_t out;          /* requests that the device has */
    uint8_t *inflight;   /* its area of the inflight region; NULL: none */
    uint64_t counter;    /* of what was taken */
    covretin_resubmit *again;
    size_t again_at, again_count; /* those that are still to be taken again */
    uint16_t *next;               /* the links of a packed ring's entries, as the inflight region has them, */
    uint16_t free_head;           /* where their free list begins, */
    uint16_t used_place;          /* and the place that is used next, as in a base */
    struct kept kept;             /* of the chain that is followed */
};

/* How many descriptors of a chain are copied at a time; and how many segments a request has at most that is kept for others, and of how many
 * requests that is. */
enum { COPIES = 64, KEPT_SEGMENTS = 4, MOST_KEPT = 2 * COVRETIN_DEVICE_BURST };

/* A request that the device has, or what is kept for one. */
struct taken {
    covretin_request request;
    struct session *session;
    struct space *space;
    struct kept kept;
    uint16_t id;
    uint16_t room, part_count; /* for so many segments, and so many parts */
    struct part {
        uint64_t guest, size;
    } *parts; /* that are to be written, behind the segments */
    struct iovec segments[];
};

/* The backend channel, where this part keeps it. */
struct teller {
    covretin_channel_connection vmm;
    int timer;     /* a timerfd */
    bool is_due;   /* there is a change to be told, */
    bool is_asked; /* and one that is being told */
};

struct session {
    struct holder holder;
    pthread_mutex_t lock;
    const covretin_device_calls *calls;
    void *own;
    covretin_service frontend;
    uint64_t features, protocol_features; /* that were accepted */
    struct space *space;
    struct mapping *log, *inflight;
    uint16_t inflight_queue_size;
    int inflight_fd; /* of the region that was made here; open until its reply was sent */
    struct arrival arrival;
    struct teller teller;
    struct ring rings[COVRETIN_DEVICE_MAX_QUEUES];
    size_t out;      /* requests that the device has, of all rings */
    uint32_t waits;  /* a call that is replied to once requests are done; 0: none */
    int polled;      /* an epoll of all that the session waits for */
    short events;    /* that are polled of the socket */
    bool is_called;  /* which may have calls */
    bool is_waiting; /* no turn is under way */
    bool is_on_one_processor; /* it may use no other */
    int timer;       /* for rings without a kick */
    bool is_timed;
    int stop, signals; /* an eventfd, and a signalfd, or -1 */
    atomic_bool is_stopped;
    bool is_told, is_closed;
    uint32_t last_request; /* as the frontend numbers it */
    bool has_counted;      /* its refusal, which is to be told still */
    bool is_refused;       /* the call that is served, also where its reply says so and it is no error of the session's */
    bool is_cut;           /* the last request ended amid its body */
    char detail[256];      /* why the call that is served is refused, where that is known and somebody listens */
    uint64_t ends_at;    /* when this turn is to end, in nanoseconds, */
    uint64_t part_ends;  /* and the part of it that is done, calls or rings; */
    unsigned since_look; /* how much of that was done since the time was looked at, */
    uint32_t first;      /* and the ring that is served first */
    enum covretin_error why; /* it ended; 0: it goes on */
    int empty; /* a file of no bytes */
    covretin_segment segments[COVRETIN_DEVICE_MAX_QUEUE_SIZE]; /* of the chain that is followed, */
    size_t segment_count;
    covretin_descriptor copies[COPIES]; /* and its descriptors */
    struct taken *spare[MOST_KEPT]; /* what is kept for requests of few segments, */
    size_t spare_count;             /* and of how many */
};

/* How long calls are served in a turn, and then rings, in nanoseconds; after both no queue is polled any more. And how much is done between two
 * looks at the time, as descriptors of requests: a chain of few costs less than a look. A chain counts as so many more, and no burst goes on beyond
 * so many. */
enum { PART = 400000, TURN = 2 * PART, LOOK_AFTER = 64, OF_A_CHAIN = 8, OF_A_BURST = 512 };

/* The time, in nanoseconds. */
uint64_t time_now(void);

/* A part of a turn begins; and whether it is over, once so much more of it was done. */
void part_begin(struct session *session);
bool part_is_over(struct session *session, unsigned done);

/* -- Saying why, where somebody listens -- */

/* Why the call that is served is refused, as a text of covretin_reasons.h: said once it is, unless another was noted before. False. */
bool log_why(struct session *session, const char *form, ...) __attribute__((format(printf, 2, 3)));

/* The same, of a file that could not be mapped, and of that of a region. False. */
bool log_file(struct session *session, const char *what, const covretin_region *region);
bool log_region(struct session *session, size_t at, const covretin_region *region);

/* By which rule a queue refuses something. */
const char *log_rule(enum covretin_queue_error error);

/* A request was refused; a session ended; and a queue is broken. */
void log_refused(struct session *session, uint32_t request, enum covretin_error error);
void log_ended(const struct session *session);
void log_broken(uint32_t queue, enum covretin_queue_error error);

/* Counts, where the device wants that; whoever reads may be in another thread. */
#define COUNT(session, counter, by) \
    do { \
        if ((session)->calls->stats != NULL) \
            __atomic_fetch_add(&(session)->calls->stats->counter, (by), __ATOMIC_RELAXED); \
    } while (0)

/* Whether requests are taken from it. */
bool ring_is_running(const struct session *session, const struct ring *ring);

/* Begins to take requests, where the ring stopped, or where the device before was stopped. Whether it could. */
bool ring_start(struct session *session, struct ring *ring);

/* The ring's parts are found anew. Where they lie nowhere it is left alone. */
void ring_move(struct session *session, struct ring *ring);

/* The ring has no kick any more. */
void ring_drop_kick(const struct session *session, struct ring *ring);

/* Whoever goes on with the ring finds that its driver tells of more, and need not ask for that. */
void ring_leave(const struct session *session, struct ring *ring);

/* Stops, and closes what belongs to a start. None of its requests is out, or the session has ended. */
void ring_stop(struct session *session, struct ring *ring);

/* Closes what a bell is. */
void bell_close(struct bell *bell);

/* Hands the requests that are there to the device, but for those of a driver that makes more without end: then the ring is still due. False:
 * the part of the turn is over. */
bool ring_serve(struct session *session, struct ring *ring);

/* The ring was kicked. */
void ring_kicked(const struct session *session, struct ring *ring);

/* Looks at quiet rings until one shows more, for as long as the device has said, and then has their drivers tell; or until the turn ends,
 * after which they are looked at in the next. Whether one does; not where another is due. The lock is let go of meanwhile. */
bool rings_busy_poll(struct session *session);

/* Takes requests of a ring that the device takes of, at most so many: how many there were. */
size_t ring_take(struct session *session, struct ring *ring, covretin_request **requests, size_t most);

/* The device has so many requests less. Where there is one processor alone, and these were the last of a ring whose next one comes soon, the
 * ring is looked at from now on. */
void ring_count_in(struct session *session, struct ring *ring, size_t count);

/* Gives requests of one ring back, with how many bytes were written of each. Its driver hears of all at once. */
void ring_give(struct session *session, struct ring *ring, covretin_request *const *requests, const uint32_t *written, size_t count);

/* What held a request holds none any more: it is kept for another, or freed. And all that is kept is. */
void taken_drop(struct session *session, struct taken *taken);
void taken_free_kept(struct session *session);

/* Whether the system has what eventfds are signalled by. */
bool signals_prepare(void);

/* Signals a bell, without waiting. Where that cannot be done the session ends. */
void ring_signal(struct session *session, const struct bell *bell);

/* -- The inflight region -- */

/* How many bytes of it a ring of this size has. */
uint64_t inflight_size(bool is_packed, uint16_t size);

/* Finds what the device before took and did not give back. An area of zeros is a new one, of a ring whose used ring has this index, or that
 * begins at this place. False: it is not this ring's. */
bool inflight_recover_split(struct ring *ring, uint16_t used);
bool inflight_recover_packed(struct ring *ring, uint16_t used);

/* A split ring's head was taken. */
void inflight_take_head(struct ring *ring, uint16_t head);

/* A descriptor of a packed ring is kept, for the chain that is followed. False: there is no free entry. And all were: the request is taken. */
bool inflight_keep(struct ring *ring, const covretin_descriptor *descriptor);
void inflight_take_kept(struct ring *ring);

/* The next one that was kept, of a request that is taken again. False: there is none. */
bool inflight_kept(struct ring *ring, covretin_descriptor *descriptor);

/* Before the driver is told that a request was used, by a new index of the used ring or by flags, and after that. */
void inflight_before_used(struct ring *ring, const struct taken *taken);
void inflight_after_used(struct ring *ring, const struct taken *taken, uint16_t told);

/* -- The backend channel -- */

/* What has to be there for it; and that is closed. */
bool teller_prepare(struct session *session);
void teller_free(struct session *session);

/* Takes the channel's socket over. False: it stays the caller's. */
bool teller_begin(struct session *session, int fd);
void teller_end(struct session *session);

/* The channel is ready; or it is time to ask the device whether its configuration changed. */
void teller_go_on(struct session *session);
void teller_look(struct session *session);

/* Has something polled for, to be read. */
bool poll_for(const struct session *session, int fd, uint32_t of);

/* -- Calls -- */

/* Answers a call of the frontend: an error of the reply. */
enum covretin_error answer_call(struct session *session, uint32_t call);

/* Gives the device of a session, which is the context, a request that has no call of its own. 0: it serves that. */
int answer_other(void *context, uint32_t request, const uint8_t *bytes, size_t len, const int32_t *fds, size_t count);

/* Whether a call that stops rings has to wait for requests of theirs. Nothing more is taken meanwhile. */
bool has_to_wait(struct session *session, uint32_t call);

/* Closes the inflight region that was made here. */
void close_inflight_fd(struct session *session);

#endif
