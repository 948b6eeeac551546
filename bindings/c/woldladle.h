/* The proved model, for callers in C, on x86-64. Two archives, of which a caller links one or both:
 *
 *   target/staticlib/libwoldladle.a        sessions, step by step (`./run --build` writes both)
 *   target/staticlib/libwoldladle_runs.a   whole runs, woldladle_run, woldladle_draw and woldladle_shorten
 *
 * What a session is lent, and nothing else: the libraries allocate no memory and keep nothing between calls.
 *
 *   struct woldladle_session        64 bytes, aligned to 8
 *   uint32_t switch_numbers[150]    600 bytes: the switch, its marks and how many of them count
 *   uint32_t store[25340]           101,360 bytes: the replicas in their order, their values and stamps and those of one that joins, and the writes in the links; of a quorum
 *                                   store also the leader's log, and what each replica has logged and acknowledged
 *   uint32_t opens[642]             2,568 bytes: the open operations, and a row for each waiting packet of a read of several objects
 *   packets[64]                     1,536 bytes, aligned to 8: the waiting packets, oldest first; a longer array is taken too, and its first 64 places are used
 *
 * struct woldladle_model has all of it. The session is set to zeros before its first start; the rest may hold anything. From an accepted start on nobody but the
 * library writes in it, until the next accepted start. No pointer is kept, and what is lent lies apart. A `length` is in bytes; `places` counts packets, and `count`
 * objects or values. Every value of every argument is taken: what is not allowed is refused by the number that document 01 or 02 gives it. A call takes less than 2 KB of
 * stack, but for woldladle_run and woldladle_shorten, which say how much.
 */
#ifndef WOLDLADLE_H
#define WOLDLADLE_H

#include <stddef.h>
#include <stdint.h>

#ifdef __cplusplus
extern "C" {
#endif

#define WOLDLADLE_SWITCH 150
#define WOLDLADLE_STORE 25340
#define WOLDLADLE_OPENS 642
#define WOLDLADLE_PLACES 64
#define WOLDLADLE_REPLICAS 8        /* the most that are live at a time */
#define WOLDLADLE_CHAIN 10          /* the numbers that woldladle_chain writes */
#define WOLDLADLE_POSITIONS 3       /* .. and woldladle_positions */
#define WOLDLADLE_LONGEST_CONTEXT 8 /* the most objects that one read names */
#define WOLDLADLE_SHORTEST_RECORD 3 /* tags 12, 13 and 14, which have no content */
#define WOLDLADLE_LONGEST_RECORD 19
#define WOLDLADLE_LONGEST_LINE 147
#define WOLDLADLE_LONGEST_INPUT 65536
#define WOLDLADLE_OUTPUT_ROOM 3276800 /* room for the output of any input, which has 21,845 records at the most */

/* What a finished read says, if its object had a counting mark when the switch sent it to the tail, or to the leader of a quorum store: the stamp of its value is below the
 * mark's (old), or it is not (new). A read of several objects says neither. */
#define WOLDLADLE_NONE 0
#define WOLDLADLE_OLD 1
#define WOLDLADLE_NEW 2

/* The answer of the last start or step. */
struct woldladle_session {
    uint8_t refusal;    /* 0, or the number of the refusal: then `marks`, `waiting` and all that is lent are as they were */
    uint32_t operation; /* the operation just finished, or 0 */
    uint32_t count;     /* how many values it has: 0 where none finished, 1, or 2 to 8 for a read of so many objects */
    uint32_t values[WOLDLADLE_LONGEST_CONTEXT]; /* in the order given; 0 behind the last */
    uint32_t freshness; /* WOLDLADLE_OLD or WOLDLADLE_NEW, else WOLDLADLE_NONE */
    uint32_t marks;     /* marks counting: the number that the switch stores */
    size_t waiting;     /* packets waiting, which the next step begins with */
};

struct woldladle_packet {
    uint64_t own[3];
};

/* The start of one record, all of whose `length` bytes are lent: replicas numbered 1 to n, an empty store, and the session all zeros. Tag 32 starts a chain, tag 33 a quorum
 * store, with replica 1 its leader and the others followers, all of them live for good. Refusals: 1 where the bytes are not one whole start record, and so for any other record;
 * 2 for its numbers (tag 32: n outside 1 to 8; tag 33: n other than 3, 5 and 7). After either the session before it can go on. */
void woldladle_start(struct woldladle_session *session, uint32_t *switch_numbers, uint32_t *store, uint32_t *opens, const uint8_t *record, size_t length);

/* The step of one record, all of whose `length` bytes are lent. Refusals in this order: 1 where the bytes are not one whole record, and for a start; 15 where there are
 * fewer than 64 places for packets; 3 to 13 as document 01 has them (4 once operation 4,294,967,295 is given), and 16, where a read of several objects names one twice, after 3 and before 4.
 *
 * Tag 10, which gives an operation up, is taken with length 4 and with length 2; both mean the same number.
 *
 * Tag 12 begins the join of a replica, which gets the next number never used, and each tag 13 copies the next 64 objects to it from the tail. The sixteenth copy makes it
 * the tail; before that it is not live. To remove the tail ends the join. Refused: tag 12 by 17 where eight replicas are live or number 255 has been given, then by 18 where
 * a join is under way; tag 13 by 19 where none is.
 *
 * Tag 14 makes the leader of a quorum store execute the next write of its log that a majority holds, by the acknowledgements delivered to it and counting itself. Refused by 24
 * where there is no such write or a link is full, then by 6. In such a store tag 6 takes the oldest item of a follower's link: an entry is logged and acknowledged by a packet
 * (6 where the list is full), an executed stamp is executed up to. Tags 9, 12 and 13 are refused there by 23, and so is tag 14 in a chain, before any other but 1 and 15. */
void woldladle_step(struct woldladle_session *session, uint32_t *switch_numbers, uint32_t *store, uint32_t *opens, struct woldladle_packet *packets, size_t places,
                    const uint8_t *record, size_t length);

/* The line that the run program prints for record `number`, from the session's fields: where an operation finished, the first `count` values, one at the least and eight
 * at the most, and `freshness` where that is one value. How many bytes, 0 where `out` is too short and left as it was. */
size_t woldladle_line(uint64_t number, uint8_t refusal, uint32_t operation, uint32_t count, const uint32_t values[WOLDLADLE_LONGEST_CONTEXT], uint32_t freshness,
                      size_t waiting, uint32_t marks, uint8_t *out, size_t length);

/* Writes the record of a tag with its numbers in their order, 0 for one that it does not have; tags 12, 13 and 14 have none, tags 32 and 33 have n, and tag 10 takes any operation
 * and is written with length 4. 0; or 1 where no such record exists, and for tag 11, whose record woldladle_write_context writes; or 15 where `out` is too short. A refusal
 * leaves `out` as it was. */
uint8_t woldladle_write_record(uint8_t tag, uint32_t first, uint32_t second, uint8_t *out, size_t length);

/* Writes the record of a read of `count` objects (tag 11), 3 + 2 * count bytes. 0; or 1 where `count` is not 2 to 8; or 15 where `out` is too short. A refusal leaves `out`
 * as it was. Any objects are written: the step refuses those that it does not allow. */
uint8_t woldladle_write_context(const uint16_t *objects, size_t count, uint8_t *out, size_t length);

/* How many bytes the record of a tag has, from 3 (tags 12, 13 and 14) to 9; 0 for an unknown tag, and for tag 11, whose record has no fixed length. */
uint16_t woldladle_record_length(uint8_t tag);

/* The value and the stamp (switch number times 4,294,967,296, and counter) of an object at a replica, by its number, 1 to 255. Only the live replicas and one that joins hold
 * any: 0 where there is no such replica or object, and from the step on that removes a replica or ends its join. One that joins has an object from the copy of it on, and
 * 0 before. A replica of a quorum store holds what it has executed; what it has only logged does not show. */
uint32_t woldladle_value(const uint32_t *store, uint8_t replica, uint32_t object);
uint64_t woldladle_stamp(const uint32_t *store, uint8_t replica, uint32_t object);

/* How many replicas are live. `out` gets eight numbers of live replicas in chain order, the head's first, 0 behind the last; then the number of the replica that joins, or
 * 0; then how many copies it has, 0 to 15, or 0 where none joins. Of a quorum store these are all its replicas, the leader first, and none joins. */
uint8_t woldladle_chain(const uint32_t *store, uint8_t out[WOLDLADLE_CHAIN]);

/* How far a replica of a quorum store is, by its number: `out` gets how many entries it has logged, how many of them it has executed, and how many the leader knows it to have
 * acknowledged (0 for the leader itself, which needs none). 1; or 0, and `out` is as it was, where the store is a chain or has no such replica. */
uint8_t woldladle_positions(const uint32_t *store, uint8_t replica, uint32_t out[WOLDLADLE_POSITIONS]);

/* Everything that the run program prints for a file of records. How many bytes the whole output has, whatever `room` is: `out` holds its whole lines, from the front up
 * to the first that does not fit, and every byte after them is as it was. WOLDLADLE_RUN_STACK bytes are stack enough for it. */
#define WOLDLADLE_RUN_STACK 131072
size_t woldladle_run(const uint8_t *input, size_t length, uint8_t *out, size_t room);

/* The records of a start of a chain with n replicas and of `steps` random steps, the same for the same seed on every machine, at the start of `out`; bytes beyond stay as they were. How
 * many bytes they have; or minus the refusal, and `out` is as it was: -2 where n is not 1 to 8, then -20 above 7,000 steps, then -15 where `length` is less than they have.
 * WOLDLADLE_LONGEST_INPUT bytes are room for any. Each draw is (seed times 1,664,525 plus 1,013,904,223) mod 2^32, and the next seed; tags 1 to 10 are drawn. */
#define WOLDLADLE_MOST_STEPS 7000
int64_t woldladle_draw(uint32_t seed, uint64_t n, uint64_t steps, uint8_t *out, size_t length);

/* A shorter run whose last record is refused with the same number: the start, the last record and some between, unchanged and in order, at the start of `out`, such that
 * dropping any one more of those between changes that; bytes beyond stay as they were. How many bytes they have; or minus the refusal, and `out` is as it was: -14, then -1 or
 * -2, as the run of the input meets them; then -22 above 512 records; then -21 where the last record is not refused by its step; then -15 where `room` is less than they have.
 * WOLDLADLE_SHORTEN_STACK bytes are stack enough for it. It takes a second in the worst case that is known. */
#define WOLDLADLE_MOST_RECORDS 512
#define WOLDLADLE_SHORTEN_STACK 655360
int64_t woldladle_shorten(const uint8_t *input, size_t length, uint8_t *out, size_t room);

/* All that a session is lent, and the calls over it. The switch begins with a cache line: where it lay across the end of a page, the average step took a tenth longer. */
struct __attribute__((aligned(64))) woldladle_model {
    uint32_t switch_numbers[WOLDLADLE_SWITCH];
    uint32_t opens[WOLDLADLE_OPENS];
    struct woldladle_session session;
    struct woldladle_packet packets[WOLDLADLE_PLACES];
    uint32_t store[WOLDLADLE_STORE];
};

/* The refusal, or 0. */
static inline uint8_t woldladle_model_start_record(struct woldladle_model *model, const uint8_t *record, size_t length) {
    woldladle_start(&model->session, model->switch_numbers, model->store, model->opens, record, length);
    return model->session.refusal;
}

/* A start of a chain with n replicas. */
static inline uint8_t woldladle_model_start(struct woldladle_model *model, uint8_t n) {
    const uint8_t record[4] = {32, 0, 1, n};
    return woldladle_model_start_record(model, record, sizeof record);
}

/* A start of a quorum store: a leader and n - 1 followers. */
static inline uint8_t woldladle_model_start_quorum(struct woldladle_model *model, uint8_t n) {
    const uint8_t record[4] = {33, 0, 1, n};
    return woldladle_model_start_record(model, record, sizeof record);
}

static inline uint8_t woldladle_model_step(struct woldladle_model *model, const uint8_t *record, size_t length) {
    woldladle_step(&model->session, model->switch_numbers, model->store, model->opens, model->packets, WOLDLADLE_PLACES, record, length);
    return model->session.refusal;
}

static inline size_t woldladle_model_line(const struct woldladle_model *model, uint64_t number, uint8_t *out, size_t length) {
    const struct woldladle_session *s = &model->session;
    return woldladle_line(number, s->refusal, s->operation, s->count, s->values, s->freshness, s->waiting, s->marks, out, length);
}

#ifdef __cplusplus
}
#endif

#endif
