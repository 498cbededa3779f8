/*
 * Plays the octets of an input as calls on the tables of 16 points. This is libFuzzer's entry.
 * Each step is an octet, which chooses one of `steps` below, and its operands (input.h).
 */
#include <string.h>

#include "call.h"
#include "figures.h"
#include "input.h"
#include "promises.h"

enum { POINTS = HWMP_MAX_POINTS, ROWS = 8, FRAMES = 32 };
/* No input may take long, because libFuzzer must try many. */
enum { ENOUGH_CALLS = 300 };

struct point {
    uint8_t table[MOST_TABLE_OCTETS];
    size_t table_len;
};

/* An element that was sent, and the point that sent it. */
struct frame {
    uint8_t transmitter[6];
    uint8_t element[MOST_ELEMENT_OCTETS];
    size_t element_len;
};

static struct point points[POINTS];
static struct frame frames[FRAMES];
static size_t frames_kept; /* how many were sent; the last FRAMES of them are kept */
static uint64_t clock_now;
static size_t output_len;
static size_t calls_made;

static struct point *take_point(struct input *input)
{
    return &points[take_octet(input) % POINTS];
}

/* Returns a call at the present clock, with an output of the present length. */
static struct call call_on(enum entry entry, const struct point *point)
{
    return (struct call){.entry = entry,
                         .table = point->table,
                         .table_len = point->table_len,
                         .output_len = output_len,
                         .clock = clock_now};
}

static void keep_frames(const struct point *sender, const struct made *made)
{
    const uint8_t *next = made->output;

    for (uint32_t i = 0; i < made->result.frames; i++) {
        struct frame *frame = &frames[frames_kept++ % FRAMES];
        const uint8_t *element = next + HWMP_ADDRESS_OCTETS;

        memcpy(frame->transmitter, sender->table, sizeof frame->transmitter);
        frame->element_len = ELEMENT_HEAD_OCTETS + (size_t)element[1];
        memcpy(frame->element, element, frame->element_len);
        next = element + frame->element_len;
    }
}

/* Makes the call, stores its table and frames, and returns the answer. */
static uint32_t play(const struct call *call, struct point *point)
{
    struct made made = make_checked(call);

    note_call(call, &made);
    calls_made++;
    if (writes_table(call->entry)) {
        memcpy(point->table, made.table, call->table_len);
        keep_frames(point, &made);
    }
    return made.result.answer;
}

static void set_length(struct point *point, size_t length)
{
    if (length > point->table_len)
        memset(point->table + point->table_len, 0, length - point->table_len);
    point->table_len = length;
}

/* Operands: point, rows (also 0 and 129, which are too few and too many), own address, number. */
static void fresh(struct input *input)
{
    struct point *point = take_point(input);
    uint8_t rows = take_octet(input);
    struct call call;

    set_length(point, HWMP_TABLE_OCTETS(rows % (HWMP_MAX_ROWS + 2)));
    call = call_on(FRESH, point);
    take_address(input, call.address);
    call.number = take_number(input);
    play(&call, point);
}

/* A table by its fields, legal or not. Operands: point, rows, how many of them follow, head, rows. */
static void table(struct input *input)
{
    struct point *point = take_point(input);
    uint8_t rows = take_octet(input) % (HWMP_MAX_ROWS + 1);
    uint8_t given = take_octet(input);
    size_t at;

    memset(point->table, 0, sizeof point->table);
    point->table_len = HWMP_TABLE_OCTETS(rows);
    at = take_fields(input, "A00nne00000000", point->table);
    for (uint8_t i = 0; i < given && i < rows; i++)
        at += take_fields(input, "ooo0AAnne", point->table + at);
}

/* Operands: point, rows, all octets of the table as they are. */
static void raw_table(struct input *input)
{
    struct point *point = take_point(input);
    uint8_t rows = take_octet(input) % (HWMP_MAX_ROWS + 1);

    point->table_len = HWMP_TABLE_OCTETS(rows);
    take_octets(input, point->table, point->table_len);
}

/* Operands: point, place (2 octets), how many, octets to put there. */
static void overwrite(struct input *input)
{
    struct point *point = take_point(input);
    size_t place = take_plain(input, 2) % sizeof point->table;
    size_t count = take_octet(input);
    size_t room = sizeof point->table - place;

    take_octets(input, point->table + place, count < room ? count : room);
}

/* Cuts the table, or adds zeros. Operands: point, length of its table (2 octets). */
static void resize(struct input *input)
{
    struct point *point = take_point(input);

    set_length(point, take_plain(input, 2) % (sizeof point->table + 1));
}

/* Operands: length of the output from now on (2 octets). */
static void room(struct input *input)
{
    output_len = take_plain(input, 2) % (MOST_OUTPUT_OCTETS + 1);
}

/* Operands: milliseconds. */
static void advance(struct input *input)
{
    clock_now += take_number(input);
}

/* Operands: the clock from now on (8 octets). */
static void set_clock(struct input *input)
{
    clock_now = take_plain(input, 8);
}

static size_t take_list(struct input *input, const char *entry, uint8_t count, uint8_t *octets)
{
    size_t taken = 0;

    for (uint8_t i = 0; i < count; i++)
        taken += take_fields(input, entry, octets + taken);
    return taken;
}

/* Type, count, damage, fields, entries. Damage 1 or 2 makes the Length wrong, 3 the count. */
static size_t take_element(struct input *input, uint8_t element[MOST_ELEMENT_OCTETS])
{
    static const struct {
        uint8_t id;
        const char *fields;
        const char *entry; /* NULL: no list, and no count before it */
        uint8_t most;
    } types[4] = {
        {RANN, "oooAnnn", NULL, 0},
        {RREQ, "ooonAnnn", "oAn", 20},
        {RREP, "oooAnnnAn", "An", 22},
        {RERR, "o", "An", 25},
    };
    uint8_t type = take_octet(input) % 4;
    uint8_t count = take_octet(input) % (types[type].most + 1);
    uint8_t damage = take_octet(input);
    size_t length = ELEMENT_HEAD_OCTETS;

    length += take_fields(input, types[type].fields, element + length);
    if (types[type].entry != NULL) {
        element[length++] = count + (damage == 3);
        length += take_list(input, types[type].entry, count, element + length);
    }
    element[0] = types[type].id;
    element[1] = (uint8_t)(length - ELEMENT_HEAD_OCTETS + (damage == 1));
    return length + (damage == 2);
}

static struct call take_receive(struct input *input, const struct point *point)
{
    struct call call = call_on(RECEIVE, point);

    take_address(input, call.address);
    call.number = take_number(input);
    return call;
}

/* Operands: point, transmitter, link metric, element by its fields. */
static void receive_element(struct input *input)
{
    struct point *point = take_point(input);
    struct call call = take_receive(input, point);
    uint8_t element[MOST_ELEMENT_OCTETS] = {0};

    call.octets = element;
    call.octets_len = take_element(input, element);
    play(&call, point);
}

/* Operands: point, transmitter, link metric, length (2 octets), octets of the element as they are. */
static void receive_octets(struct input *input)
{
    struct point *point = take_point(input);
    struct call call = take_receive(input, point);
    uint8_t element[MOST_ELEMENT_OCTETS];

    call.octets = element;
    call.octets_len = take_plain(input, 2) % (sizeof element + 1);
    take_octets(input, element, call.octets_len);
    play(&call, point);
}

/*
 * Operands: point, which frame (0 is the last), link metric, place, octet to change it by (0
 * changes nothing).
 */
static void deliver(struct input *input)
{
    struct point *point = take_point(input);
    size_t back = 1 + take_octet(input) % FRAMES;
    struct call call = call_on(RECEIVE, point);
    struct frame frame;
    size_t place;

    if (back > frames_kept)
        return;
    frame = frames[(frames_kept - back) % FRAMES];
    call.number = take_number(input);
    memcpy(call.address, frame.transmitter, sizeof call.address);
    place = take_octet(input) % frame.element_len;
    frame.element[place] ^= take_octet(input);
    call.octets = frame.element;
    call.octets_len = frame.element_len;
    play(&call, point);
}

/*
 * Receives announcements of 02:00:00:00:01:00 and the addresses after it, until one is refused.
 * Operands: point, transmitter, lifetime, how many.
 */
static void hear_many(struct input *input)
{
    struct point *point = take_point(input);
    uint8_t element[] = {RANN, 21, 0, 0, 31, 2, 0, 0, 0, 1, 0, 1, 0, 0, 0, 0, 0, 0, 0, 1, 0, 0, 0};
    struct call call = call_on(RECEIVE, point);
    uint32_t answer = HWMP_ACCEPTED;
    uint8_t count;

    take_address(input, call.address);
    element[15] = take_octet(input);
    count = take_octet(input) % (HWMP_MAX_ROWS + 1);
    call.number = 1;
    call.octets = element;
    call.octets_len = sizeof element;
    for (element[10] = 0; element[10] < count && answer == HWMP_ACCEPTED; element[10]++)
        answer = play(&call, point);
}

/* Operands: point, lifetime, octets to cut off the last item, how many items, items. */
static void ask(struct input *input)
{
    struct point *point = take_point(input);
    uint8_t items[(HWMP_MAX_ITEMS + 2) * HWMP_ITEM_OCTETS];
    struct call call = call_on(ASK, point);
    uint8_t count, cut;

    call.number = take_number(input);
    cut = take_octet(input) % HWMP_ITEM_OCTETS;
    count = take_octet(input) % (HWMP_MAX_ITEMS + 3);
    call.octets = items;
    call.octets_len = take_list(input, "oA", count, items);
    call.octets_len -= count == 0 ? 0 : cut;
    play(&call, point);
}

static void originate(struct input *input, enum entry entry)
{
    struct point *point = take_point(input);
    struct call call = call_on(entry, point);

    call.flags = take_octet(input);
    call.number = take_number(input);
    play(&call, point);
}

/* Operands: point, flags, lifetime. */
static void announce(struct input *input)
{
    originate(input, ANNOUNCE);
}

/* Operands: point, flags, lifetime. */
static void request_as_root(struct input *input)
{
    originate(input, ROOT_REQUEST);
}

static void play_on_address(struct input *input, enum entry entry)
{
    struct point *point = take_point(input);
    struct call call = call_on(entry, point);

    take_address(input, call.address);
    play(&call, point);
}

/* Operands: point, neighbour. */
static void report_break(struct input *input)
{
    play_on_address(input, BREAK);
}

/* Operands: point, destination. */
static void next_hop(struct input *input)
{
    play_on_address(input, NEXT_HOP);
}

/* Operands: point, destination. */
static void forget(struct input *input)
{
    play_on_address(input, FORGET);
}

/* Operands: how many tables, start, destination, and a wrong count (0: the right one). */
static void walk(struct input *input)
{
    static uint8_t tables[MOST_TABLES_OCTETS];
    struct call call = {.entry = WALK, .table = tables, .clock = clock_now};
    uint8_t many = take_octet(input) % (POINTS + 1);
    uint32_t other;

    for (uint8_t i = 0; i < many; i++) {
        memcpy(tables + call.table_len, points[i].table, points[i].table_len);
        call.table_len += points[i].table_len;
    }
    take_address(input, call.address);
    take_address(input, call.destination);
    other = take_number(input);
    call.number = other == 0 ? many : other;
    play(&call, NULL);
}

/* In the order in which tests/fuzz/seeds numbers them. */
static void (*const steps[])(struct input *) = {
    fresh,           table,           raw_table,      overwrite, resize,    room, advance,
    set_clock,       receive_element, receive_octets, deliver,   hear_many, ask,  announce,
    request_as_root, report_break,    next_hop,       forget,    walk,
};

/* Gives every point a fresh table, so that a short input already gets far. */
static void begin(void)
{
    for (uint8_t i = 0; i < POINTS; i++) {
        points[i].table_len = HWMP_TABLE_OCTETS(ROWS);
        hwmp_fresh(points[i].table, points[i].table_len, (const uint8_t[6]){2, 0, 0, 0, 0, i}, 0);
    }
    frames_kept = 0;
    clock_now = 0;
    output_len = HWMP_OUTPUT_OCTETS;
    calls_made = 0;
    note_input();
}

int LLVMFuzzerTestOneInput(const uint8_t *octets, size_t count);

int LLVMFuzzerTestOneInput(const uint8_t *octets, size_t count)
{
    struct input input = {.next = octets, .end = octets + count};

    begin();
    for (int i = 0; i < MOST_STEPS && calls_made < ENOUGH_CALLS && input.next != input.end; i++) {
        struct input step = take_step(&input);

        steps[take_octet(&step) % (sizeof steps / sizeof *steps)](&step);
    }
    return 0;
}
