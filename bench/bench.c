/* The same work by the library and by plain C, alternating in one run. docs/MEASUREMENTS.md says the method. */
#include "side.h"

/* What is used of the C library beside it; the kit has no headers. */
int printf(const char *form, ...);
void qsort(void *base, size_t count, size_t size, int (*order)(const void *, const void *));

enum { ROUNDS = 1000, WARM_UP = 100, MOVES = 8192, LISTED = 256 * COSTERBLOOM_MOST_MOVES, AGREED = 3000000 };

typedef struct {
    const char *name, *unit;
    size_t units; /* in one turn */
    void (*prepare)(box *); /* before the first round, the same on both sides */
    uint64_t (*library)(box *), (*plain)(box *);
} work;

static _Alignas(4096) box boxes[2];
static uint8_t dump[COSTERBLOOM_POD_LONGEST], short_dump[COSTERBLOOM_LONGEST_OF(COSTERBLOOM_POD_PROGRAM - 1)],
    bass_dump[COSTERBLOOM_BASS_POD_LONGEST], program_dump[2 * COSTERBLOOM_POD_PROGRAM + 10];
static uint8_t moves[1 + 2 * MOVES], turns[1 + 2 * MOVES];
static costerbloom_move listed[LISTED];
static const uint8_t REQUEST[] = {0xF0, 0, 1, 0x0C, 1, 0, 2, 0xF7}, BASS_REQUEST[] = {0xF0, 0, 1, 0x0C, 2, 0, 2, 0xF7},
                     PROGRAM_REQUEST[] = {0xF0, 0, 1, 0x0C, 1, 0, 0, 17, 0xF7};

/* The library as agree.c calls it: itself. */
const side tried = {costerbloom_take, costerbloom_whole, costerbloom_moves, costerbloom_scale, costerbloom_back,
    costerbloom_screen, costerbloom_amp};

/* ---- the work, written once for both sides: each side's function is inlined into it, and calls it directly */

#define ONCE static inline __attribute__((always_inline)) uint64_t

/* The largest buffers are lent, as a box does that may be set as any kind. */
ONCE taken(take_call *take, uint32_t kind, box *b, uint8_t byte)
{
    return take(&b->receiver, 0, byte, kind, 0, 0, 0x30, 0x31, 0x30, 0x30, b->memory, sizeof b->memory, b->marks,
        sizeof b->marks, b->receive, sizeof b->receive, b->reply, sizeof b->reply);
}

/* The answers are kept, so that no call can be left out, and compared. */
ONCE fed(take_call *take, uint32_t kind, box *b, const uint8_t *bytes, size_t count)
{
    uint64_t answers = 0;
    for (size_t i = 0; i < count; i++)
        answers = 3 * answers + taken(take, kind, b, bytes[i]);
    return answers;
}

ONCE dump_in(take_call *take, box *b)
{
    return fed(take, COSTERBLOOM_POD, b, dump, sizeof dump);
}

ONCE short_dump_in(take_call *take, box *b)
{
    return fed(take, COSTERBLOOM_POD, b, short_dump, sizeof short_dump);
}

ONCE bass_dump_in(take_call *take, box *b)
{
    return fed(take, COSTERBLOOM_BASS_POD, b, bass_dump, sizeof bass_dump);
}

/* So many that a turn is long beside a look at the clock. */
enum { REQUESTS = 32, BYTES = 8192, CALLS = 32, QUICK_CALLS = 1024 };

ONCE asked(take_call *take, uint32_t kind, box *b, const uint8_t *request)
{
    uint64_t answers = 0;
    for (int i = 0; i < REQUESTS; i++)
        answers = 3 * answers + fed(take, kind, b, request, sizeof REQUEST);
    return answers;
}

ONCE reply_out(take_call *take, box *b)
{
    return asked(take, COSTERBLOOM_POD, b, REQUEST);
}

ONCE bass_reply_out(take_call *take, box *b)
{
    return asked(take, COSTERBLOOM_BASS_POD, b, BASS_REQUEST);
}

ONCE mixed_moves(take_call *take, box *b)
{
    return fed(take, COSTERBLOOM_POD, b, moves, sizeof moves);
}

ONCE pro_mixed_moves(take_call *take, box *b)
{
    return fed(take, COSTERBLOOM_POD_PRO, b, moves, sizeof moves);
}

ONCE one_knob(take_call *take, box *b)
{
    return fed(take, COSTERBLOOM_POD, b, turns, sizeof turns);
}

/* The mixed moves and more of them, in lists of one length. So many, since a processor that runs through 8,192 in one
 * loop soon knows them by heart, and the plain side is then more than twice as fast. The numbers go to the reply
 * buffer; one of each list is kept too, since the answers are all 0. */
ONCE in_lists(moves_call *call, box *b, size_t length)
{
    uint64_t answers = 0;
    for (size_t i = 0; i < LISTED / length; i++) {
        uint64_t answer = call(listed + i * length, length, COSTERBLOOM_PLAYER_ONE, COSTERBLOOM_POD, 0, 0, 0x30, 0x31,
            0x30, 0x30, b->memory, sizeof b->memory, b->reply, sizeof b->reply);
        answers = 3 * answers + answer + b->reply[i % length];
    }
    return answers;
}

ONCE single_moves(moves_call *call, box *b)
{
    return in_lists(call, b, 1);
}

ONCE short_lists(moves_call *call, box *b)
{
    return in_lists(call, b, 16);
}

/* As long as they may be. */
ONCE listed_moves(moves_call *call, box *b)
{
    return in_lists(call, b, COSTERBLOOM_MOST_MOVES);
}

ONCE real_time(take_call *take, box *b)
{
    uint64_t answers = 0;
    for (int i = 0; i < BYTES; i++)
        answers = 3 * answers + taken(take, COSTERBLOOM_POD, b, (uint8_t)(0xF8 + i % 8));
    return answers;
}

/* The receiver is set back to the whole dump but for F7, which still stands in the receive buffer. */
ONCE finished(take_call *take, uint32_t kind, box *b, size_t length, int count)
{
    uint64_t answers = 0;
    for (int i = 0; i < count; i++) {
        b->receiver = (costerbloom_receiver){.stored = (uint16_t)(length - 1), .inside = 1};
        answers = 3 * answers + taken(take, kind, b, 0xF7);
    }
    return answers;
}

ONCE last_byte(take_call *take, box *b)
{
    return finished(take, COSTERBLOOM_POD, b, sizeof dump, CALLS);
}

ONCE last_byte_of_program(take_call *take, box *b)
{
    return finished(take, COSTERBLOOM_POD, b, sizeof program_dump, QUICK_CALLS);
}

ONCE bass_last_byte(take_call *take, box *b)
{
    return finished(take, COSTERBLOOM_BASS_POD, b, sizeof bass_dump, CALLS);
}

ONCE from_panel(whole_call *whole, box *b)
{
    uint64_t answers = 0;
    for (int i = 0; i < CALLS; i++)
        answers = 3 * answers + whole(dump, sizeof dump, COSTERBLOOM_PLAYER_ONE, COSTERBLOOM_POD, 0, 0, 0x30, 0x31,
                                    0x30, 0x30, b->memory, sizeof b->memory, b->marks, sizeof b->marks, b->reply,
                                    sizeof b->reply);
    return answers;
}

ONCE shown(back_call *back, box *b, uint32_t controller)
{
    uint64_t answers = 0;
    for (int i = 0; i < QUICK_CALLS; i++)
        answers = 3 * answers + back(controller, COSTERBLOOM_PLAYER_ONE, COSTERBLOOM_POD, b->memory, sizeof b->memory);
    return answers;
}

ONCE shown_back(back_call *back, box *b)
{
    return shown(back, b, 13);
}

ONCE shown_of_sheet(back_call *back, box *b)
{
    return shown(back, b, 23);
}

/* Each program in turn, and between them the own buffer; of the part where it begins is kept too. */
ONCE screened(screen_call *screen, box *b)
{
    uint64_t answers = 0;
    costerbloom_part part = {b->memory, 0};
    size_t programs = COSTERBLOOM_EDIT_OF(COSTERBLOOM_POD_PROGRAM, COSTERBLOOM_PLAYER_ONE);
    for (uint32_t i = 0; i < QUICK_CALLS; i++) {
        uint64_t answer = screen(&part, i / 2 % 36, i % 2, COSTERBLOOM_PLAYER_ONE, COSTERBLOOM_POD, b->memory, programs,
            b->memory + programs, COSTERBLOOM_POD_PROGRAM);
        answers = 3 * answers + answer + part.length + (uint64_t)(part.bytes - b->memory);
    }
    return answers;
}

#define SIDES(name, call)                                                                                              \
    static uint64_t name##_library(box *b)                                                                             \
    {                                                                                                                  \
        return name(costerbloom_##call, b);                                                                            \
    }                                                                                                                  \
    static uint64_t name##_plain(box *b)                                                                               \
    {                                                                                                                  \
        return name(plain_##call, b);                                                                                  \
    }

SIDES(dump_in, take)
SIDES(short_dump_in, take)
SIDES(reply_out, take)
SIDES(mixed_moves, take)
SIDES(one_knob, take)
SIDES(single_moves, moves)
SIDES(short_lists, moves)
SIDES(listed_moves, moves)
SIDES(real_time, take)
SIDES(last_byte_of_program, take)
SIDES(last_byte, take)
SIDES(from_panel, whole)
SIDES(shown_back, back)
SIDES(shown_of_sheet, back)
SIDES(screened, screen)
SIDES(bass_dump_in, take)
SIDES(bass_last_byte, take)
SIDES(bass_reply_out, take)
SIDES(pro_mixed_moves, take)

/* ---- what is fed */

/* The dump that answers a request, so long: the version stands where the request ends, and its half bytes behind. */
static void make_dump(uint8_t *message, size_t length, const uint8_t *request, size_t request_length)
{
    uint64_t seed = 36;
    __builtin_memcpy(message, request, request_length - 1);
    message[5] = 1;
    for (size_t i = request_length; i < length - 1; i++)
        message[i] = (uint8_t)below(&seed, 16);
    message[length - 1] = 0xF7;
}

/* Each of a POD's 49 controllers as often as the others, in no order, so that all formulas and effects come up; one in
 * 16 is a number that may be in no table, and values run over the whole range, so that each of 17, 18, 19 comes up
 * too. */
static void make_moves(void)
{
    static const uint8_t CONTROLLERS[49] = {25, 26, 27, 28, 50, 36, 22, 73, 47, 37, 13, 20, 14, 15, 16, 21, 17, 24, 32,
        34, 38, 39, 40, 41, 18, 72, 1, 4, 44, 45, 7, 46, 12, 71, 19, 23, 30, 62, 49, 42, 51, 52, 53, 54, 55, 56, 57, 58,
        59};
    uint64_t seed = 49;
    for (size_t i = 0; i < LISTED; i++) {
        listed[i].controller = below(&seed, 16) ? CONTROLLERS[below(&seed, 49)] : (uint8_t)below(&seed, 128);
        listed[i].value = (uint8_t)below(&seed, listed[i].controller == 19 ? 17 : 128);
    }
    moves[0] = turns[0] = 0xB0;
    for (size_t i = 0; i < MOVES; i++) {
        moves[1 + 2 * i] = listed[i].controller;
        moves[2 + 2 * i] = listed[i].value;
        turns[1 + 2 * i] = 7;
        turns[2 + 2 * i] = (uint8_t)(i % 128);
    }
}

static void fresh(box *b)
{
    uint64_t seed = 72;
    *b = (box){.receiver = {.stored = 0}};
    for (size_t i = 0; i < sizeof b->memory; i++)
        b->memory[i] = (uint8_t)below(&seed, 256);
    __builtin_memset(b->marks, 1, sizeof b->marks);
}

static void received(box *b, const uint8_t *message, size_t length)
{
    fresh(b);
    __builtin_memcpy(b->receive, message, length - 1);
}

static void with_dump(box *b)
{
    received(b, dump, sizeof dump);
}

static void with_program_dump(box *b)
{
    received(b, program_dump, sizeof program_dump);
}

static void with_bass_dump(box *b)
{
    received(b, bass_dump, sizeof bass_dump);
}

/* Bytes 9 and 16 of player one's edit buffer are those of controllers 13 and 23. */
static void showing(box *b, uint32_t of_13, uint32_t of_23)
{
    uint8_t *edit = b->memory + COSTERBLOOM_EDIT_OF(COSTERBLOOM_POD_PROGRAM, COSTERBLOOM_PLAYER_ONE);
    fresh(b);
    edit[9] = (uint8_t)of_13;
    edit[16] = (uint8_t)of_23;
}

/* What no value gives: every value is in vain. */
static void with_none(box *b)
{
    showing(b, 0xFF, 0xFF);
}

/* What a high value gives, and none below it. */
static void with_high(box *b)
{
    showing(b, costerbloom_scale(13, 100, COSTERBLOOM_POD), costerbloom_scale(23, 100, COSTERBLOOM_POD));
}

static void inside(box *b)
{
    with_dump(b);
    b->receiver = (costerbloom_receiver){.stored = 2000, .inside = 1};
}

static const work WORKS[] = {
    {"a long dump in, byte by byte", "byte", sizeof dump, fresh, dump_in_library, dump_in_plain},
    {"a short long dump in", "byte", sizeof short_dump, fresh, short_dump_in_library, short_dump_in_plain},
    {"a long reply out, its request", "request", REQUESTS, fresh, reply_out_library, reply_out_plain},
    {"controllers, all kinds mixed", "byte", sizeof moves, fresh, mixed_moves_library, mixed_moves_plain},
    {"controllers, one knob turned", "byte", sizeof turns, fresh, one_knob_library, one_knob_plain},
    {"1 move in one call", "move", LISTED, fresh, single_moves_library, single_moves_plain},
    {"16 moves in one call", "move", LISTED, fresh, short_lists_library, short_lists_plain},
    {"256 moves in one call", "move", LISTED, fresh, listed_moves_library, listed_moves_plain},
    {"real-time bytes", "byte", BYTES, fresh, real_time_library, real_time_plain},
    {"real-time bytes inside a SysEx", "byte", BYTES, inside, real_time_library, real_time_plain},
    {"one call: F7 of 154 bytes", "call", QUICK_CALLS, with_program_dump, last_byte_of_program_library,
        last_byte_of_program_plain},
    {"one call: F7 of a long dump", "call", CALLS, with_dump, last_byte_library, last_byte_plain},
    {"one call: a long dump, panel", "call", CALLS, fresh, from_panel_library, from_panel_plain},
    {"one call: shown back, none found", "call", QUICK_CALLS, with_none, shown_back_library, shown_back_plain},
    {"one call: the same, of the sheet", "call", QUICK_CALLS, with_none, shown_of_sheet_library, shown_of_sheet_plain},
    {"one call: shown back, found", "call", QUICK_CALLS, with_high, shown_back_library, shown_back_plain},
    {"one call: the same, of the sheet, found", "call", QUICK_CALLS, with_high, shown_of_sheet_library,
        shown_of_sheet_plain},
    {"one call: the screen", "call", QUICK_CALLS, fresh, screened_library, screened_plain},
    {"Bass POD: a long dump in", "byte", sizeof bass_dump, fresh, bass_dump_in_library, bass_dump_in_plain},
    {"Bass POD: F7 of 5,769 bytes", "call", CALLS, with_bass_dump, bass_last_byte_library, bass_last_byte_plain},
    {"Bass POD: a long reply out", "request", REQUESTS, fresh, bass_reply_out_library, bass_reply_out_plain},
    {"POD Pro: controllers, mixed", "byte", sizeof moves, fresh, pro_mixed_moves_library, pro_mixed_moves_plain},
};

/* ---- the method */

static double time_of(uint64_t (*turn)(box *), box *b, uint64_t *answers)
{
    uint64_t from = now();
    *answers = turn(b);
    return (double)(now() - from);
}

static int by_size(const void *a, const void *b)
{
    double x = *(const double *)a, y = *(const double *)b;
    return (x > y) - (x < y);
}

/* The median of all rounds. */
static double middle(double *values)
{
    qsort(values, ROUNDS, sizeof *values, by_size);
    return values[ROUNDS / 2];
}

/* One round: a turn of each side. In every second round the other side is first, and in every second two the sides
 * change boxes: both boxes hold the same, and where one lies in memory must favour nobody. */
static int round_same(const work *w, int i, double *library, double *plain)
{
    box *one = &boxes[i >> 1 & 1], *other = &boxes[~i >> 1 & 1];
    uint64_t x, y;
    if (i & 1)
        *plain = time_of(w->plain, other, &y);
    *library = time_of(w->library, one, &x);
    if (!(i & 1))
        *plain = time_of(w->plain, other, &y);
    return x == y;
}

static int measure(const work *w)
{
    static double library[ROUNDS], plain[ROUNDS], ratio[ROUNDS];
    w->prepare(&boxes[0]);
    w->prepare(&boxes[1]);
    for (int i = 0; i < WARM_UP + ROUNDS; i++) {
        int at = i % ROUNDS; /* the last rounds overwrite those of the warm-up */
        if (!round_same(w, i, &library[at], &plain[at]))
            return 0;
        ratio[at] = library[at] / plain[at];
    }
    double units = (double)w->units;
    printf(
        "%s\t%s\t%.2f\t%.2f\t%.3f\n", w->name, w->unit, middle(library) / units, middle(plain) / units, middle(ratio));
    return same_box(&boxes[0], &boxes[1]);
}

/* What the mixed moves are made of: how many got each number. */
static void count_moves(void)
{
    unsigned counts[32] = {0};
    fresh(&boxes[0]);
    for (size_t i = 0; i < sizeof moves; i++)
        counts[taken(costerbloom_take, COSTERBLOOM_POD, &boxes[0], moves[i]) & 31]++;
    printf("# of %d mixed controllers %u are applied, %u not in the table, %u out of range, %u not selected\n", MOVES,
        counts[3], counts[17], counts[18], counts[19]);
}

/* With a word, whatever it is, the two sides are held against each other and nothing is measured. */
int main(int words, char **unused)
{
    (void)unused;
    make_dump(dump, sizeof dump, REQUEST, sizeof REQUEST);
    make_dump(short_dump, sizeof short_dump, REQUEST, sizeof REQUEST);
    make_dump(bass_dump, sizeof bass_dump, BASS_REQUEST, sizeof BASS_REQUEST);
    make_dump(program_dump, sizeof program_dump, PROGRAM_REQUEST, sizeof PROGRAM_REQUEST);
    make_moves();
    if (!panel_agrees()) {
        printf("what is scaled, shown back, known or on the screen is another on the plain side\n");
        return 1;
    }
    uint32_t agreed = agree(&boxes[0], &boxes[1], AGREED);
    printf("# %u random calls answered alike by both, buffers and receivers too\n", agreed);
    if (agreed != AGREED || words > 1)
        return agreed != AGREED;
    count_moves();
    for (size_t i = 0; i < sizeof WORKS / sizeof *WORKS; i++)
        if (!measure(&WORKS[i])) {
            printf("%s: the two sides differ\n", WORKS[i].name);
            return 1;
        }
    return 0;
}
