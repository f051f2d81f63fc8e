/* A call takes less of the stack than the header says, whatever the kind and the player. The calls are made on a stack
 * of this program's own, which is painted before. Says nothing where all is well. */
#include <costerbloom.h>

#include "filled.h"
#include "report.h"

enum { MOST = 2048, PAINT = 0xA5, STORED = 1, APPLIED = 3 };
enum { SELECTOR = 46, SELECTING = 19 }; /* the byte of the edit buffer, and the controller that writes it on a POD */

static const struct kind {
    uint32_t number;
    size_t program, longest, shortest; /* the last two: of a dump of all programs, by their marks */
    uint8_t request[8]; /* for all programs */
} kinds[] = {
    {COSTERBLOOM_POD, COSTERBLOOM_POD_PROGRAM, COSTERBLOOM_POD_LONGEST, 5121, {0xF0, 0, 1, 0x0C, 1, 0, 2, 0xF7}},
    {COSTERBLOOM_BASS_POD, COSTERBLOOM_BASS_POD_PROGRAM, COSTERBLOOM_BASS_POD_LONGEST, COSTERBLOOM_BASS_POD_LONGEST,
        {0xF0, 0, 1, 0x0C, 2, 0, 2, 0xF7}},
    {COSTERBLOOM_POD_PRO, COSTERBLOOM_POD_PRO_PROGRAM, COSTERBLOOM_POD_PRO_LONGEST, 5121,
        {0xF0, 0, 1, 0x0C, 1, 0, 2, 0xF7}},
};

static uint8_t stack[4 * MOST] __attribute__((aligned(16)));
static uint8_t memory[COSTERBLOOM_MEMORY], marks[COSTERBLOOM_MARKS];
static uint8_t receive[COSTERBLOOM_LONGEST], reply[COSTERBLOOM_LONGEST];
static costerbloom_receiver receiver;

static costerbloom_move list[COSTERBLOOM_MOST_MOVES];
static uint8_t numbers[COSTERBLOOM_MOST_MOVES];

/* The kind and the player that are tried, and what their calls did: moves that were applied, by bytes and in lists,
 * dumps and program changes, and parts for the screen. */
static const struct kind *kind;
static uint32_t player;
static int applied, listed, stored, shown;

/* Calls a function with the stack's end at `top`. */
void on_stack(void (*calls)(void), uint8_t *top);
__asm__("on_stack: push %rbp\n mov %rsp, %rbp\n mov %rsi, %rsp\n call *%rdi\n mov %rbp, %rsp\n pop %rbp\n ret");

static uint64_t take(uint8_t byte)
{
    return costerbloom_take(&receiver, player, byte, kind->number, 0, 0, 1, 2, 3, 4, memory, sizeof memory, marks,
        sizeof marks, receive, sizeof receive, reply, sizeof reply);
}

static uint64_t whole(const uint8_t *message, size_t length)
{
    return costerbloom_whole(message, length, player, kind->number, 0, 0, 1, 2, 3, 4, memory, sizeof memory, marks,
        sizeof marks, reply, sizeof reply);
}

/* Each controller under each effect, at the values where a search ends first and last, and these as amp models; and
 * each program change. */
static void moves(void)
{
    uint8_t *edit = memory + COSTERBLOOM_EDIT_OF(kind->program, player);
    for (uint32_t place = 0; place < 16 * 128; place++) {
        uint8_t controller = place % 128;
        for (uint8_t value = 0; value < 128; value += 127) {
            edit[SELECTOR] = (uint8_t)(place / 128);
            take(0xB0);
            take(controller);
            applied += take(value) == APPLIED;
            costerbloom_scale(controller, value, kind->number);
            costerbloom_back(controller, player, kind->number, memory, sizeof memory);
            costerbloom_amp(value, kind->number);
        }
    }
    take(0xC0);
    for (uint8_t program = 0; program < 128; program++)
        stored += take(program) == STORED;
}

/* The same moves as one list for each effect, which the list itself selects. */
static void lists(void)
{
    for (uint8_t effect = 0; effect < 16; effect++) {
        for (size_t move = 0; move < COSTERBLOOM_MOST_MOVES; move++) {
            uint8_t controller = (uint8_t)(move / 2), value = move % 2 ? 127 : 0;
            list[move] = (costerbloom_move){controller, controller == SELECTING ? effect : value};
        }
        costerbloom_moves(list, COSTERBLOOM_MOST_MOVES, player, kind->number, 0, 0, 1, 2, 3, 4, memory, sizeof memory,
            numbers, sizeof numbers);
        for (size_t move = 0; move < COSTERBLOOM_MOST_MOVES; move++)
            listed += numbers[move] == APPLIED;
    }
}

/* All programs asked for and the answer sent back, byte by byte and by the panel, with these marks and so long. The
 * receive buffer then holds the answer but for its last byte. */
static void dumps_of(uint8_t mark, size_t length)
{
    fill(marks, sizeof marks, mark);
    for (size_t place = 0; place < sizeof kind->request; place++)
        take(kind->request[place]);
    for (size_t place = 0; place < length; place++)
        stored += take(reply[place]) == STORED;
    receive[length - 1] = 0xF7;
    whole(kind->request, sizeof kind->request);
    stored += whole(receive, length) == STORED;
}

static void dumps(void)
{
    dumps_of(1, kind->longest);
    dumps_of(0, kind->shortest);
}

/* Each program, and the own buffer, which is shown whatever the program. */
static void screens(void)
{
    costerbloom_part part = {memory, 0};
    for (uint32_t program = 0; program < 40; program++)
        for (uint32_t own = 0; own < 2; own++) {
            costerbloom_screen(&part, program, own, player, kind->number, memory, sizeof memory,
                memory + COSTERBLOOM_EDIT_OF(kind->program, player), kind->program);
            shown += part.length == kind->program;
        }
}

/* How many bytes of the stack were written. */
static size_t used_by(void (*calls)(void))
{
    fill(stack, sizeof stack, PAINT);
    on_stack(calls, stack + sizeof stack);
    size_t untouched = 0;
    while (untouched < sizeof stack && stack[untouched] == PAINT)
        untouched++;
    return sizeof stack - untouched;
}

static void try_all(_Bool *within, _Bool *done)
{
    applied = listed = stored = shown = 0;
    *within &= used_by(moves) < MOST;
    *within &= used_by(lists) < MOST;
    *within &= used_by(dumps) < MOST;
    *within &= used_by(screens) < MOST;
    int changes = kind->number == COSTERBLOOM_BASS_POD ? 36 : 0;
    *done &= applied != 0 && listed != 0 && stored == changes + 4 && shown == 36 + 40;
}

int main(void)
{
    _Bool within = 1, done = 1;
    for (kind = kinds; kind < kinds + sizeof kinds / sizeof *kinds; kind++)
        for (player = COSTERBLOOM_PLAYER_ONE; player <= COSTERBLOOM_PLAYER_TWO; player++)
            try_all(&within, &done);
    if (!done)
        say("stack: the calls did not do what they should\n");
    else if (!within)
        say("stack: a call takes more than the header says\n");
    return !done || !within;
}
