/* The records costerbloom_receiver, costerbloom_move and costerbloom_part: the library and the header place their
 * fields alike. Says nothing where they do. */
#include <costerbloom.h>

#include "filled.h"
#include "report.h"

_Static_assert(sizeof(costerbloom_receiver) == 8, "size");
_Static_assert(_Alignof(costerbloom_receiver) == 2, "alignment");
_Static_assert(offsetof(costerbloom_receiver, stored) == 0, "stored");
_Static_assert(offsetof(costerbloom_receiver, inside) == 2, "inside");
_Static_assert(offsetof(costerbloom_receiver, over) == 3, "over");
_Static_assert(offsetof(costerbloom_receiver, running) == 4, "running");
_Static_assert(offsetof(costerbloom_receiver, held) == 5, "held");
_Static_assert(offsetof(costerbloom_receiver, waiting) == 6, "waiting");

_Static_assert(sizeof(costerbloom_move) == 2 && sizeof(costerbloom_move[3]) == 6, "size of a move, and of a list");
_Static_assert(_Alignof(costerbloom_move) == 1, "alignment of a move");
_Static_assert(offsetof(costerbloom_move, controller) == 0, "controller");
_Static_assert(offsetof(costerbloom_move, value) == 1, "value");

_Static_assert(sizeof(costerbloom_part) == 16 && _Alignof(costerbloom_part) == 8, "size and alignment of a part");
_Static_assert(offsetof(costerbloom_part, bytes) == 0 && offsetof(costerbloom_part, length) == 8, "bytes, length");

enum { FIELD_BYTES = 7, BESIDE = 8, UNTOUCHED = 0xA5 };

static const char *const names[FIELD_BYTES] = {
    "stored, low byte", "stored, high byte", "inside", "over", "running", "held", "waiting"};

/* What the library's record holds, byte by byte, after a status byte and a data byte some times over. */
static const struct {
    const char *fed;
    uint32_t kind;
    uint8_t status, data;
    int times;
    uint8_t record[FIELD_BYTES];
} cases[] = {
    {"FE", COSTERBLOOM_POD, 0xFE, 0, 0, {0, 0, 0, 0, 0, 0, 0}},
    {"F0", COSTERBLOOM_POD, 0xF0, 0, 0, {1, 0, 1, 0, 0, 0, 0}},
    {"B0 0D", COSTERBLOOM_POD, 0xB0, 0x0D, 1, {0, 0, 0, 0, 0xB0, 1, 0x0D}},
    {"F0 and 5191 bytes", COSTERBLOOM_POD, 0xF0, 0, 5191, {0x48, 0x14, 1, 0, 0, 0, 0}},
    {"F0 and 5192 bytes", COSTERBLOOM_POD, 0xF0, 0, 5192, {0x48, 0x14, 1, 1, 0, 0, 0}},
    {"B0 0D on a Bass POD", COSTERBLOOM_BASS_POD, 0xB0, 0x0D, 1, {0, 0, 0, 0, 0xB0, 1, 0x0D}},
    {"F0 and 5767 bytes on a Bass POD", COSTERBLOOM_BASS_POD, 0xF0, 0, 5767, {0x88, 0x16, 1, 0, 0, 0, 0}},
    {"F0 and 5768 bytes on a Bass POD", COSTERBLOOM_BASS_POD, 0xF0, 0, 5768, {0x88, 0x16, 1, 1, 0, 0, 0}},
    {"B0 09 on a POD Pro", COSTERBLOOM_POD_PRO, 0xB0, 0x09, 1, {0, 0, 0, 0, 0xB0, 1, 0x09}},
    {"F0 and 5191 bytes on a POD Pro", COSTERBLOOM_POD_PRO, 0xF0, 0, 5191, {0x48, 0x14, 1, 0, 0, 0, 0}},
    {"F0 and 5192 bytes on a POD Pro", COSTERBLOOM_POD_PRO, 0xF0, 0, 5192, {0x48, 0x14, 1, 1, 0, 0, 0}},
};

/* A list for a POD, and what becomes of each move: its number, and the byte of the edit buffer that holds its value
 * where it was applied, else 0 ("v: 4>18 44>19 45>20 7>22", "12>8"). The same numbers come as controllers and as
 * values: a field that is read from another place gives another number, or stores something else. */
enum { APPLIED = 3, NO_CONTROLLER = 17, OUT_OF_RANGE = 18, MOVES = 6 };

static const struct {
    const char *fed;
    costerbloom_move move;
    uint8_t number, place;
} scene[MOVES] = {
    {"4 at 44", {4, 44}, APPLIED, 18},
    {"44 at 4", {44, 4}, APPLIED, 19},
    {"45 at 200", {45, 200}, OUT_OF_RANGE, 20},
    {"200 at 45", {200, 45}, NO_CONTROLLER, 20},
    {"7 at 12", {7, 12}, APPLIED, 22},
    {"12 at 7", {12, 7}, APPLIED, 8},
};

/* The bytes beside the record show whether the library takes it for a longer one. */
static struct {
    uint8_t before[BESIDE];
    costerbloom_receiver receiver;
    uint8_t after[BESIDE];
} lent;

/* The same of a list and of its numbers. The list is at an odd place, as its alignment allows. */
static struct {
    _Alignas(2) uint8_t before[BESIDE + 1];
    costerbloom_move moves[MOVES];
    uint8_t between[BESIDE], numbers[MOVES], after[BESIDE];
} listed;

/* The same of a part. */
static struct {
    uint8_t before[BESIDE];
    costerbloom_part part;
    uint8_t after[BESIDE];
} handed;

static uint8_t memory[COSTERBLOOM_MEMORY], marks[COSTERBLOOM_MARKS];
static uint8_t receive[COSTERBLOOM_LONGEST], reply[COSTERBLOOM_LONGEST];

static void take(uint8_t byte, uint32_t kind)
{
    costerbloom_take(&lent.receiver, 0, byte, kind, 0, 0, 0, 0, 0, 0, memory, sizeof memory, marks, sizeof marks,
        receive, sizeof receive, reply, sizeof reply);
}

static _Bool differs(const char *fed, const char *what)
{
    say("layout: after ");
    say(fed);
    say(" the record differs in: ");
    say(what);
    say("\n");
    return 1;
}

static _Bool holds_another(const char *fed, const uint8_t *record)
{
    _Bool another = 0;
    const uint8_t *bytes = (const uint8_t *)&lent.receiver;
    for (int place = 0; place < FIELD_BYTES; place++)
        if (bytes[place] != record[place])
            another = differs(fed, names[place]);
    if (!is_full_of(lent.before, sizeof lent.before, UNTOUCHED) ||
        !is_full_of(lent.after, sizeof lent.after, UNTOUCHED))
        another = differs(fed, "a byte beside it");
    return another;
}

static void move_all(void)
{
    fill(&listed, sizeof listed, UNTOUCHED);
    for (size_t move = 0; move < MOVES; move++)
        listed.moves[move] = scene[move].move;
    costerbloom_moves(listed.moves, MOVES, COSTERBLOOM_PLAYER_ONE, COSTERBLOOM_POD, 0, 0, 0, 0, 0, 0, memory,
        sizeof memory, listed.numbers, sizeof listed.numbers);
}

static _Bool reads_another(void)
{
    _Bool another = 0;
    const uint8_t *edit = memory + COSTERBLOOM_EDIT_OF(COSTERBLOOM_POD_PROGRAM, COSTERBLOOM_PLAYER_ONE);
    for (size_t move = 0; move < MOVES; move++) {
        if (listed.numbers[move] != scene[move].number)
            another = differs(scene[move].fed, "number");
        if (edit[scene[move].place] != (scene[move].number == APPLIED ? scene[move].move.value : 0))
            another = differs(scene[move].fed, "what it stores");
    }
    if (!is_full_of(listed.before, sizeof listed.before, UNTOUCHED) ||
        !is_full_of(listed.between, sizeof listed.between, UNTOUCHED) ||
        !is_full_of(listed.after, sizeof listed.after, UNTOUCHED))
        another = differs("a list of moves", "a byte beside it");
    return another;
}

/* A part of the programs, and an empty one for a program that is none. */
static _Bool hands_another(uint32_t program, size_t place, size_t length)
{
    const char *fed = length ? "a program on the screen" : "no program on the screen";
    fill(&handed, sizeof handed, UNTOUCHED);
    handed.part = (costerbloom_part){reply, 1};
    costerbloom_screen(&handed.part, program, 0, COSTERBLOOM_PLAYER_ONE, COSTERBLOOM_POD, memory, sizeof memory,
        receive, sizeof receive);
    if (!is_full_of(handed.before, sizeof handed.before, UNTOUCHED) ||
        !is_full_of(handed.after, sizeof handed.after, UNTOUCHED))
        return differs(fed, "a byte beside it");
    return (handed.part.bytes != memory + place && differs(fed, "bytes")) ||
           (handed.part.length != length && differs(fed, "length"));
}

int main(void)
{
    _Bool wrong = 0;
    for (size_t row = 0; row < sizeof cases / sizeof *cases; row++) {
        fill(&lent, sizeof lent, UNTOUCHED);
        lent.receiver = (costerbloom_receiver){0};
        take(cases[row].status, cases[row].kind);
        for (int time = 0; time < cases[row].times; time++)
            take(cases[row].data, cases[row].kind);
        wrong |= holds_another(cases[row].fed, cases[row].record);
    }
    move_all();
    wrong |= reads_another();
    wrong |= hands_another(35, 2520, 72);
    wrong |= hands_another(36, 0, 0);
    return wrong;
}
