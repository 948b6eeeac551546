/* A load generator's inner loop: writes object after object, reads each while its write is pending, and prints the model's lines. Then it reads two objects at once. After that
 * a server of a second store is swapped: a replica joins, gets copies and writes, and takes the place of another; and starts that are refused leave it as it was. In the end a
 * follower of a quorum store is asked, before it has executed what the leader has and after. */
#include "woldladle.h"
#include <stdio.h>
#include <string.h>

static struct woldladle_model model;
static uint32_t number;

static void print_line(void) {
    const struct woldladle_session *s = &model.session;
    uint8_t line[WOLDLADLE_LONGEST_LINE];
    fwrite(line, 1, woldladle_model_line(&model, ++number, line, sizeof line), stdout);
    if (s->freshness != WOLDLADLE_NONE)
        printf("read %u %s the pending write\n", (unsigned)s->operation, s->freshness == WOLDLADLE_OLD ? "overtook" : "came after");
}

static uint8_t step_of(const uint8_t *record, size_t length) {
    uint8_t refusal = woldladle_model_step(&model, record, length);
    print_line();
    return refusal;
}

static uint8_t step(uint8_t tag, uint32_t first, uint32_t second) {
    uint8_t record[WOLDLADLE_LONGEST_RECORD];
    woldladle_write_record(tag, first, second, record, sizeof record);
    return step_of(record, woldladle_record_length(tag));
}

/* Reads several objects at once, and prints the value of each. */
static void read_context(const uint16_t *objects, size_t count) {
    const struct woldladle_session *s = &model.session;
    uint8_t record[WOLDLADLE_LONGEST_RECORD];
    woldladle_write_context(objects, count, record, sizeof record);
    step_of(record, 3 + 2 * count);
    while (s->waiting > 0)
        step(3, 0, 0);
    for (uint32_t i = 0; i < s->count; i++)
        printf("read %u found %u in object %u\n", (unsigned)s->operation, (unsigned)s->values[i], (unsigned)objects[i]);
}

static void print_chain(void) {
    uint8_t told[WOLDLADLE_CHAIN];
    uint8_t live = woldladle_chain(model.store, told);
    printf("live:");
    for (uint8_t i = 0; i < live; i++)
        printf(" %u", told[i]);
    if (told[WOLDLADLE_REPLICAS] != 0)
        printf("; replica %u joins, copies: %u", told[WOLDLADLE_REPLICAS], told[WOLDLADLE_REPLICAS + 1]);
    printf("\n");
}

static void print_held(uint8_t replica, uint32_t object) {
    uint64_t stamp = woldladle_stamp(model.store, replica, object);
    printf("replica %u holds %u of object %u, with stamp (%u,%u)\n", replica, (unsigned)woldladle_value(model.store, replica, object), (unsigned)object,
           (unsigned)(stamp >> 32), (unsigned)(uint32_t)stamp);
}

/* A write through replicas 1 and 2, from its begin to its completion. */
static void write_through(uint32_t object, uint32_t value) {
    step(2, object, value);
    step(3, 0, 0); /* the switch marks it */
    step(3, 0, 0); /* the head applies it */
    step(6, 2, 0); /* .. and the tail does */
    while (model.session.waiting > 0)
        step(3, 0, 0); /* the reply and the completion */
}

static void start(uint8_t n) {
    number = 0;
    woldladle_model_start(&model, n);
    print_line();
}

/* Replica 3 joins and replica 1 goes; 0 if every refusal is the one expected. */
static int swap_a_server(void) {
    int wrong = 0;
    start(2);
    write_through(5, 900);
    write_through(100, 1000);
    wrong |= step(13, 0, 0) != 19; /* a copy, and no join is under way */
    wrong |= step(12, 0, 0) != 0;  /* a join */
    wrong |= step(12, 0, 0) != 18; /* .. and another */
    print_chain();
    print_held(3, 5);
    step(13, 0, 0); /* the first copy: objects 0 to 63 */
    print_chain();
    print_held(3, 5);
    write_through(5, 901); /* it reaches the newcomer */
    print_held(3, 5);
    print_held(3, 100);
    for (int copies = 1; copies < 16; copies++)
        step(13, 0, 0);
    print_chain();
    print_held(3, 100);
    print_held(1, 5);
    step(9, 1, 0); /* the old server goes */
    print_chain();
    print_held(1, 5);
    start(8);
    wrong |= step(12, 0, 0) != 17; /* eight are live */
    return wrong;
}

/* A start by these bytes is refused with this number, and leaves all that is lent as it was; 0 if so. */
static int refused_start(const uint8_t *record, size_t length, uint8_t refusal) {
    static struct woldladle_model before;
    memcpy(&before, &model, sizeof model);
    int wrong = woldladle_model_start_record(&model, record, length) != refusal;
    print_line();
    wrong |= memcmp(before.switch_numbers, model.switch_numbers, sizeof model.switch_numbers) != 0;
    wrong |= memcmp(before.opens, model.opens, sizeof model.opens) != 0;
    wrong |= memcmp(before.packets, model.packets, sizeof model.packets) != 0;
    wrong |= memcmp(before.store, model.store, sizeof model.store) != 0;
    return wrong | (before.session.marks != model.session.marks) | (before.session.waiting != model.session.waiting);
}

static int refused_starts(void) {
    int wrong = 0;
    wrong |= step(2, 5, 9) != 0; /* a write, which waits */
    wrong |= refused_start((const uint8_t[]){7, 7, 7}, 3, 1);
    wrong |= refused_start((const uint8_t[]){12, 0, 0}, 3, 1);       /* a step's record */
    wrong |= refused_start((const uint8_t[]){32, 0, 1}, 3, 1);       /* a byte too few */
    wrong |= refused_start((const uint8_t[]){32, 0, 1, 2, 0}, 5, 1); /* .. and too many */
    wrong |= refused_start((const uint8_t[]){32, 0, 1, 0}, 4, 2);
    wrong |= refused_start((const uint8_t[]){32, 0, 1, 9}, 4, 2);
    wrong |= step(3, 0, 0) != 0; /* the switch marks the write: the session goes on */
    return wrong;
}

static void print_positions(uint8_t replica) {
    uint32_t told[WOLDLADLE_POSITIONS];
    if (woldladle_positions(model.store, replica, told))
        printf("replica %u: logged %u, executed %u, acknowledged %u\n", replica, (unsigned)told[0], (unsigned)told[1], (unsigned)told[2]);
    else
        printf("replica %u: no positions\n", replica);
}

/* Reads object 5, and has the switch ask replica 2 where direct reads are on. */
static void ask_replica_2(void) {
    step(1, 5, 0);
    step(3, 0, 1);
    while (model.session.waiting > 0)
        step(3, 0, 0);
}

/* Replica 2 follows a leader; 0 if every refusal is the one expected. */
static int ask_a_follower(void) {
    int wrong = 0;
    print_positions(1); /* a chain's replica has none */
    number = 0;
    wrong |= woldladle_model_start_quorum(&model, 4) != 2;
    wrong |= woldladle_model_start_quorum(&model, 3) != 0;
    print_line();
    print_chain();
    step(2, 5, 900);
    step(3, 0, 0); /* the switch marks it */
    step(3, 0, 0); /* the leader logs it, and sends it to its followers */
    step(6, 2, 0); /* replica 2 logs it */
    print_positions(2);
    wrong |= step(14, 0, 0) != 24; /* the leader does not know that a majority holds it */
    step(3, 0, 0);                 /* .. until the acknowledgement is delivered */
    print_positions(2);
    wrong |= step(14, 0, 0) != 0; /* so now it executes it */
    while (model.session.waiting > 0)
        step(3, 0, 0); /* the reply and the completion */
    print_positions(1);
    print_held(1, 5);
    print_held(2, 5);
    ask_replica_2(); /* it has not executed enough, and sends the read on to the leader */
    step(6, 2, 0);   /* it hears how far the leader has executed, and executes as far */
    print_positions(2);
    print_held(2, 5);
    ask_replica_2();              /* it answers */
    wrong |= step(9, 3, 0) != 23; /* no replica of such a store is removed */
    print_positions(4);
    return wrong;
}

int main(void) {
    start(1);
    for (uint32_t object = 5; object < 8; object++) {
        step(2, object, object * 100); /* begin a write */
        step(1, object, 0);            /* begin a read of the same object */
        step(3, 0, 0);                 /* the switch marks the write */
        step(3, 0, 0);                 /* .. and sends the read to the tail */
        if (object % 2 == 0)
            step(3, 1, 0); /* there the read overtakes the write */
        while (model.session.waiting > 0)
            step(3, 0, 0); /* deliver the oldest packet */
        printf("replica 1 holds %u of object %u\n", (unsigned)woldladle_value(model.store, 1, object), (unsigned)object);
    }
    read_context((const uint16_t[]){7, 5}, 2);
    if (step(1, 1024, 0) != 3) /* refused: no such object */
        return 1;
    return swap_a_server() || refused_starts() || ask_a_follower();
}
