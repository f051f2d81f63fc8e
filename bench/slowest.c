/* The slowest call of a long run: every value scaled, every field shown back, then random calls of all kinds, those of
 * agree.c. Each call of the library is timed by itself, and the same run is made many times over: a call counts with
 * the least of its times, since one that the machine interrupted is not slow. Nothing is subtracted for the clock. */
#include "side.h"

int printf(const char *form, ...);

/* A MIDI byte takes 320 microseconds on the cable. */
enum { RUNS = 15, CALLS = 6000000, MOST_TIMED = 12000000, CABLE = 320000 };
enum { TAKE, WHOLE, MOVES, SCALE, BACK, SCREEN, AMP, FUNCTIONS };

/* How a call is told, by what it asked. */
static const struct {
    const char *name, *asked;
} FUNCTION[FUNCTIONS] = {
    {"take", "byte %02X, %u stored"},
    {"whole", "%u bytes"},
    {"moves", "%u moves"},
    {"scale", "controller %u, value %u"},
    {"back", "controller %u"},
    {"screen", "program %u, own %u"},
    {"amp", "model %u"},
};
static const char *const KIND[] = {"POD", "Bass POD", "POD Pro", "no kind"};

typedef struct {
    uint32_t nanoseconds, kind, asked[2], answer;
} call;

static box boxes[2];
static uint32_t least[MOST_TIMED]; /* of each call's times, in the order of the run */
static size_t timed; /* calls of this run */
static int run;
static uint64_t largest; /* of all times, interrupted ones too */
static call slowest[FUNCTIONS];

/* Keeps a call's time. In the last run its least is known, and it may be the slowest. */
static void keep(int function, uint64_t took, uint32_t kind, uint32_t asked, uint32_t beside, uint32_t answer)
{
    uint32_t *own = &least[timed++ % MOST_TIMED], nanoseconds = took < (uint32_t)-1 ? (uint32_t)took : (uint32_t)-1;
    if (largest < took)
        largest = took;
    if (run == 0 || nanoseconds < *own)
        *own = nanoseconds;
    if (run == RUNS - 1 && slowest[function].nanoseconds < *own)
        slowest[function] = (call){*own, kind, {asked, beside}, answer};
}

static uint64_t take(costerbloom_receiver *receiver, uint32_t socket, uint8_t byte, uint32_t kind, uint8_t channel,
    uint8_t omni, uint8_t revision0, uint8_t revision1, uint8_t revision2, uint8_t revision3, uint8_t *memory,
    size_t memory_length, uint8_t *marks, size_t marks_length, uint8_t *receive, size_t receive_length, uint8_t *reply,
    size_t reply_length)
{
    uint32_t stored = receiver->stored;
    uint64_t from = now();
    uint64_t answer = costerbloom_take(receiver, socket, byte, kind, channel, omni, revision0, revision1, revision2,
        revision3, memory, memory_length, marks, marks_length, receive, receive_length, reply, reply_length);
    keep(TAKE, now() - from, kind, byte, stored, answer & 0xFF);
    return answer;
}

static uint64_t whole(const uint8_t *message, size_t message_length, uint32_t player, uint32_t kind, uint8_t channel,
    uint8_t omni, uint8_t revision0, uint8_t revision1, uint8_t revision2, uint8_t revision3, uint8_t *memory,
    size_t memory_length, uint8_t *marks, size_t marks_length, uint8_t *reply, size_t reply_length)
{
    uint64_t from = now();
    uint64_t answer = costerbloom_whole(message, message_length, player, kind, channel, omni, revision0, revision1,
        revision2, revision3, memory, memory_length, marks, marks_length, reply, reply_length);
    keep(WHOLE, now() - from, kind, (uint32_t)message_length, 0, answer & 0xFF);
    return answer;
}

static uint64_t moves(const costerbloom_move *moves, size_t count, uint32_t player, uint32_t kind, uint8_t channel,
    uint8_t omni, uint8_t revision0, uint8_t revision1, uint8_t revision2, uint8_t revision3, uint8_t *memory,
    size_t memory_length, uint8_t *numbers, size_t numbers_length)
{
    uint64_t from = now();
    uint64_t answer = costerbloom_moves(moves, count, player, kind, channel, omni, revision0, revision1, revision2,
        revision3, memory, memory_length, numbers, numbers_length);
    keep(MOVES, now() - from, kind, (uint32_t)count, 0, answer & 0xFF);
    return answer;
}

static uint32_t scale(uint32_t controller, uint32_t value, uint32_t kind)
{
    uint64_t from = now();
    uint32_t answer = costerbloom_scale(controller, value, kind);
    keep(SCALE, now() - from, kind, controller, value, answer);
    return answer;
}

static uint32_t back(
    uint32_t controller, uint32_t player, uint32_t kind, const uint8_t *memory, size_t memory_length)
{
    uint64_t from = now();
    uint32_t answer = costerbloom_back(controller, player, kind, memory, memory_length);
    keep(BACK, now() - from, kind, controller, 0, answer);
    return answer;
}

static uint64_t screen(costerbloom_part *part, uint32_t program, uint32_t own, uint32_t player, uint32_t kind,
    const uint8_t *programs, size_t programs_length, const uint8_t *buffer, size_t buffer_length)
{
    uint64_t from = now();
    uint64_t answer =
        costerbloom_screen(part, program, own, player, kind, programs, programs_length, buffer, buffer_length);
    keep(SCREEN, now() - from, kind, program, own, answer & 0xFF);
    return answer;
}

static uint32_t amp(uint32_t model, uint32_t kind)
{
    uint64_t from = now();
    uint32_t answer = costerbloom_amp(model, kind);
    keep(AMP, now() - from, kind, model, 0, answer);
    return answer;
}

/* The library as agree.c calls it: with a look at the clock before and behind. */
const side tried = {take, whole, moves, scale, back, screen, amp};

/* The least time of nothing. */
static uint64_t clock_cost(void)
{
    uint64_t cost = CABLE;
    for (int i = 0; i < 1000; i++) {
        uint64_t from = now(), took = now() - from;
        cost = took < cost ? took : cost;
    }
    return cost;
}

static void tell(int function)
{
    const call *c = &slowest[function];
    printf("%-6s  %5u ns  %5.2f %%  ", FUNCTION[function].name, c->nanoseconds, 100.0 * c->nanoseconds / CABLE);
    printf(FUNCTION[function].asked, c->asked[0], c->asked[1]);
    printf(
        ", %s, answer %s%u\n", KIND[c->kind < 3 ? c->kind : 3], c->answer < 65536 ? "" : "65536 + ", c->answer % 65536);
}

int main(void)
{
    for (run = 0; run < RUNS; run++) {
        timed = 0;
        boxes[0] = boxes[1] = (box){.receiver = {.stored = 0}};
        if (!panel_agrees() || agree(&boxes[0], &boxes[1], CALLS) != CALLS) {
            printf("the two sides differ\n");
            return 1;
        }
        if (timed > MOST_TIMED) {
            printf("there is no room for so many calls\n");
            return 1;
        }
    }
    printf("# %zu calls, %d times over: each function's slowest, and its part of 320 microseconds\n", timed, RUNS);
    for (int function = 0; function < FUNCTIONS; function++)
        tell(function);
    printf("# the clock's own part of each time is %.0f ns; the largest time that was seen, interrupted, %.0f ns\n",
        (double)clock_cost(), (double)largest);
    return 0;
}
