/* The seven calls: the library reads each argument at the place where the header puts it, and gives back what the
 * header says, for every kind and player. No compiler holds the two against each other. Says nothing where all is
 * well. */
#include <costerbloom.h>

#include "filled.h"
#include "report.h"

enum { TAKEN = 0, STORED = 1, REPLIED = 2, IDENTIFIED = REPLIED + (17 << 8), NOT_OURS = 11, NO_CONTROLLER = 21 };
enum { TOO_LONG = 10, WRONG_LENGTH = 13, NO_PROGRAM = 14, WRONG_VERSION = 15, ABOVE_0F = 16 };
enum { OTHER_CHANNEL = 22, SHORT = 30, NO_PLAYER = 31, NOT_SOUND = 32, REFUSED = 65536 };
enum { APPLIED = 3, NOT_IN_TABLE = 17, OUT_OF_RANGE = 18, NOT_SELECTED = 19, TOO_MANY = 33, FEW_NUMBERS = 34 };
enum { FILLED = 0x5A, PROGRAMS = 36, PLAYERS = 2 };

/* Identity request for channel 5, and its answer by a box of revision 1 2 3 4. */
static const uint8_t request[] = {0xF0, 0x7E, 5, 6, 1, 0xF7};

/* A kind as the documents have it. */
static const struct kind {
    uint32_t number;
    size_t program, spare, memory, longest; /* spare: how many bytes of a program a short dump lacks */
    uint8_t identity[17], device;
    uint8_t drive, amp, last_model; /* the bytes of controllers 13, by v/2 on each, and 12, and the latter's highest */
} kinds[] = {
    {0, 72, 1, 2736, 5193, {0xF0, 0x7E, 5, 6, 2, 0, 1, 0x0C, 0, 0, 0, 1, 1, 2, 3, 4, 0xF7}, 1, 9, 8, 27},
    {1, 80, 0, 3040, 5769, {0xF0, 0x7E, 5, 6, 2, 0, 1, 0x0C, 2, 0, 0, 0, 1, 2, 3, 4, 0xF7}, 2, 4, 3, 15},
    {2, 72, 1, 2736, 5193, {0xF0, 0x7E, 5, 6, 2, 0, 1, 0x0C, 0, 0, 0, 4, 1, 2, 3, 4, 0xF7}, 1, 9, 8, 31},
};
static const struct kind *const pod = &kinds[0], *const bass = &kinds[1], *const pro = &kinds[2];
static const struct kind *const kinds_end = kinds + 3;

_Static_assert(COSTERBLOOM_POD == 0 && COSTERBLOOM_BASS_POD == 1 && COSTERBLOOM_POD_PRO == 2, "kinds");
_Static_assert(COSTERBLOOM_POD_PROGRAM == 72 && COSTERBLOOM_BASS_POD_PROGRAM == 80, "a program");
_Static_assert(COSTERBLOOM_POD_MEMORY == 2736 && COSTERBLOOM_BASS_POD_MEMORY == 3040, "memory");
_Static_assert(COSTERBLOOM_POD_LONGEST == 5193 && COSTERBLOOM_BASS_POD_LONGEST == 5769, "the longest message");
_Static_assert(COSTERBLOOM_POD_PRO_PROGRAM == 72, "a POD Pro's program");
_Static_assert(COSTERBLOOM_POD_PRO_MEMORY == 2736 && COSTERBLOOM_POD_PRO_LONGEST == 5193, "a POD Pro's lengths");
_Static_assert(COSTERBLOOM_MEMORY == 3040 && COSTERBLOOM_LONGEST == 5769, "the largest");
_Static_assert(COSTERBLOOM_MARKS == 38, "the marks");
_Static_assert(COSTERBLOOM_PLAYER_ONE == 0 && COSTERBLOOM_PLAYER_TWO == 1, "players");
_Static_assert(COSTERBLOOM_EDIT_OF(72, 0) == 2592 && COSTERBLOOM_EDIT_OF(72, 1) == 2664, "a POD's edit buffers");
_Static_assert(COSTERBLOOM_EDIT_OF(80, 0) == 2880 && COSTERBLOOM_EDIT_OF(80, 1) == 2960, "a Bass POD's edit buffers");
_Static_assert(COSTERBLOOM_MOST_MOVES == 256, "the longest list");

/* One past the kinds and the players, two that are one if they are cut to 8 or 16 bits, and the highest. */
static const uint32_t no_kinds[] = {3, 256, 65537, 0xFFFFFFFF};
static const uint32_t no_players[] = {2, 256, 65537, 0xFFFFFFFF};

/* The arguments of a call beside the kind, one of them amiss in each row but the first two, and the answers of the
 * three calls that have settings; in the last rows two are amiss, and the answer is what is tested first. A byte comes
 * on its player's socket. So many marks are lent; of each other buffer so many bytes are lacking: for a list, `reply`
 * says it of its numbers. */
static const struct arguments {
    const char *amiss;
    uint32_t player;
    uint8_t channel, omni, revision[4];
    size_t memory, marks, receive, reply;
    uint64_t take, whole, moves;
} rows[] = {
    {"nothing, player one", 0, 5, 0, {1, 2, 3, 4}, 0, 38, 0, 0, IDENTIFIED, IDENTIFIED, TAKEN},
    {"nothing, player two", 1, 5, 0, {1, 2, 3, 4}, 0, 38, 0, 0, IDENTIFIED, IDENTIFIED, TAKEN},
    {"channel", 1, 4, 0, {1, 2, 3, 4}, 0, 38, 0, 0, OTHER_CHANNEL, OTHER_CHANNEL, TAKEN},
    {"channel, omni", 1, 4, 1, {1, 2, 3, 4}, 0, 38, 0, 0, IDENTIFIED, IDENTIFIED, TAKEN},
    {"player", 2, 5, 0, {1, 2, 3, 4}, 0, 38, 0, 0, NO_PLAYER, NO_PLAYER, NO_PLAYER},
    {"player, one if cut to 8 bits", 256, 5, 0, {1, 2, 3, 4}, 0, 38, 0, 0, NO_PLAYER, NO_PLAYER, NO_PLAYER},
    {"player, wide", 0x80000001, 5, 0, {1, 2, 3, 4}, 0, 38, 0, 0, NO_PLAYER, NO_PLAYER, NO_PLAYER},
    {"channel range", 1, 16, 1, {1, 2, 3, 4}, 0, 38, 0, 0, NOT_SOUND, NOT_SOUND, NOT_SOUND},
    {"omni range", 1, 5, 2, {1, 2, 3, 4}, 0, 38, 0, 0, NOT_SOUND, NOT_SOUND, NOT_SOUND},
    {"revision0 range", 1, 5, 0, {0x80, 2, 3, 4}, 0, 38, 0, 0, NOT_SOUND, NOT_SOUND, NOT_SOUND},
    {"revision1 range", 1, 5, 0, {1, 0x80, 3, 4}, 0, 38, 0, 0, NOT_SOUND, NOT_SOUND, NOT_SOUND},
    {"revision2 range", 1, 5, 0, {1, 2, 0x80, 4}, 0, 38, 0, 0, NOT_SOUND, NOT_SOUND, NOT_SOUND},
    {"revision3 range", 1, 5, 0, {1, 2, 3, 0x80}, 0, 38, 0, 0, NOT_SOUND, NOT_SOUND, NOT_SOUND},
    {"memory length", 1, 5, 0, {1, 2, 3, 4}, 1, 38, 0, 0, SHORT, SHORT, SHORT},
    {"marks length", 1, 5, 0, {1, 2, 3, 4}, 0, 37, 0, 0, SHORT, SHORT, TAKEN},
    {"no marks", 1, 5, 0, {1, 2, 3, 4}, 0, 0, 0, 0, SHORT, SHORT, TAKEN},
    {"marks, more lent", 1, 5, 0, {1, 2, 3, 4}, 0, 41, 0, 0, IDENTIFIED, IDENTIFIED, TAKEN},
    {"receive length", 1, 5, 0, {1, 2, 3, 4}, 0, 38, 1, 0, SHORT, IDENTIFIED, TAKEN},
    {"reply length", 1, 5, 0, {1, 2, 3, 4}, 0, 38, 0, 1, SHORT, SHORT, FEW_NUMBERS},
    {"30 of memory before 31", 2, 5, 0, {1, 2, 3, 4}, 1, 38, 0, 0, SHORT, SHORT, SHORT},
    {"30 of marks before 31", 2, 5, 0, {1, 2, 3, 4}, 0, 37, 0, 0, SHORT, SHORT, NO_PLAYER},
    {"30 of receive before 31", 2, 5, 0, {1, 2, 3, 4}, 0, 38, 1, 0, SHORT, NO_PLAYER, NO_PLAYER},
    {"30 of reply before 31", 2, 5, 0, {1, 2, 3, 4}, 0, 38, 0, 1, SHORT, SHORT, FEW_NUMBERS},
    {"31 before 32 of the channel", 2, 16, 0, {1, 2, 3, 4}, 0, 38, 0, 0, NO_PLAYER, NO_PLAYER, NO_PLAYER},
    {"31 before 22", 2, 4, 0, {1, 2, 3, 4}, 0, 38, 0, 0, NO_PLAYER, NO_PLAYER, NO_PLAYER},
};

/* One mark that is another, all others set, and the answers of the two calls that are lent marks, to a box that is as
 * in the first rows else. In the last rows several things are amiss, and the answer is what is tested first; `past` is
 * added to the kind. */
static const struct marked {
    const char *amiss;
    size_t lent, place;
    uint8_t mark;
    uint32_t past, player;
    uint64_t take, whole;
} marked[] = {
    {"program 0's mark clear", 38, 0, 0, 0, 1, IDENTIFIED, IDENTIFIED},
    {"program 0x23's mark clear", 38, 35, 0, 0, 1, IDENTIFIED, IDENTIFIED},
    {"player one's mark clear", 38, 36, 0, 0, 1, IDENTIFIED, IDENTIFIED},
    {"player two's mark clear", 38, 37, 0, 0, 1, IDENTIFIED, IDENTIFIED},
    {"program 0's mark is 2", 38, 0, 2, 0, 1, NOT_SOUND, NOT_SOUND},
    {"program 7's mark is 0x80", 38, 7, 0x80, 0, 1, NOT_SOUND, NOT_SOUND},
    {"program 0x1F's mark is 3", 38, 31, 3, 0, 1, NOT_SOUND, NOT_SOUND},
    {"program 0x20's mark is 0x10", 38, 32, 0x10, 0, 1, NOT_SOUND, NOT_SOUND},
    {"program 0x23's mark is 2", 38, 35, 2, 0, 1, NOT_SOUND, NOT_SOUND},
    {"player one's mark is 2", 38, 36, 2, 0, 0, NOT_SOUND, NOT_SOUND},
    {"player one's mark is 2, player two's call", 38, 36, 2, 0, 1, NOT_SOUND, NOT_SOUND},
    {"player two's mark is 2", 38, 37, 2, 0, 1, NOT_SOUND, NOT_SOUND},
    {"player two's mark is 2, player one's call", 38, 37, 2, 0, 0, NOT_SOUND, NOT_SOUND},
    {"player two's mark is 0xFF, more lent", 41, 37, 0xFF, 0, 1, NOT_SOUND, NOT_SOUND},
    {"2 behind the marks, not lent", 38, 38, 2, 0, 1, IDENTIFIED, IDENTIFIED},
    {"2 behind the marks, lent", 41, 38, 2, 0, 1, IDENTIFIED, IDENTIFIED},
    {"0xFF behind the marks, lent", 41, 40, 0xFF, 0, 1, IDENTIFIED, IDENTIFIED},
    {"30 before 31 and 32 of a mark", 37, 0, 2, 0, 2, SHORT, SHORT},
    {"31 before 32 of a mark", 38, 36, 2, 0, 2, NO_PLAYER, NO_PLAYER},
    {"32 of the kind before 31", 38, 0, 1, 3, 2, NOT_SOUND, NOT_SOUND},
    {"32 of the kind before 30 of marks", 37, 0, 1, 3, 1, NOT_SOUND, NOT_SOUND},
};

/* What a dump or a request names: its type, and of type 0 its program; that is so many programs. */
static const struct named {
    uint8_t type, program;
    size_t programs;
} names[] = {{0, 0, 1}, {0, 7, 1}, {0, 0x23, 1}, {1, 0, 1}, {2, 0, PROGRAMS}};
static const struct named *const last_program = &names[2], *const edit_buffer = &names[3];
static const struct named *const all_programs = &names[4], *const names_end = names + 5;

/* A scene for each kind: its moves, the number of each, and what an edit buffer that was zero holds then. A POD's byte
 * 46, and a POD Pro's, is 0 at first, which selects 51, and a move of 19 makes it 2, which selects 55 and 56; 62 keeps
 * what 30 stored. On every kind refused moves stand between those that are applied, and both fields have numbers above
 * 127. */
enum { SCENE = 13 };

static const struct scene {
    struct {
        costerbloom_move move;
        uint8_t number;
    } made[SCENE];
    uint8_t edit[COSTERBLOOM_BASS_POD_PROGRAM];
} scenes[] = {
    {{{{55, 127}, NOT_SELECTED}, {{19, 2}, APPLIED}, {{55, 127}, APPLIED}, {{51, 127}, NOT_SELECTED},
         {{56, 127}, APPLIED}, {{141, 5}, NOT_IN_TABLE}, {{255, 255}, NOT_IN_TABLE}, {{13, 128}, OUT_OF_RANGE},
         {{51, 128}, OUT_OF_RANGE}, {{30, 64}, APPLIED}, {{62, 1}, APPLIED}, {{9, 127}, NOT_IN_TABLE},
         {{13, 127}, APPLIED}},
        {[46] = 2, [48] = 1, [49] = 0x4E, [50] = 0x0B, [26] = 0x06, [27] = 0xC0, [9] = 63}},
    {{{{13, 127}, APPLIED}, {{12, 16}, OUT_OF_RANGE}, {{12, 15}, APPLIED}, {{55, 127}, NOT_IN_TABLE},
         {{19, 2}, APPLIED}, {{55, 127}, NOT_IN_TABLE}, {{141, 5}, NOT_IN_TABLE}, {{255, 255}, NOT_IN_TABLE},
         {{13, 128}, OUT_OF_RANGE}, {{30, 64}, NOT_IN_TABLE}, {{64, 127}, APPLIED}, {{9, 127}, NOT_IN_TABLE},
         {{1, 127}, APPLIED}},
        {[4] = 63, [3] = 15, [49] = 2, [2] = 1, [50] = 63}},
    {{{{9, 127}, APPLIED}, {{12, 32}, OUT_OF_RANGE}, {{12, 31}, APPLIED}, {{9, 128}, OUT_OF_RANGE},
         {{55, 127}, NOT_SELECTED}, {{19, 2}, APPLIED}, {{55, 127}, APPLIED}, {{51, 127}, NOT_SELECTED},
         {{137, 5}, NOT_IN_TABLE}, {{255, 255}, NOT_IN_TABLE}, {{30, 64}, APPLIED}, {{62, 1}, APPLIED},
         {{13, 127}, APPLIED}},
        {[35] = 63, [8] = 31, [46] = 2, [48] = 1, [26] = 0x06, [27] = 0xC0, [9] = 63}},
};

/* Lists of every sort of length, move i being controller 13 at i % 256, for a box of channel 5 or, out of range, 16; in
 * the last rows several things are amiss, and the answer is what is tested first. `past` is added to the kind, `beyond`
 * to the player, and so many bytes of memory are lacking. */
static const struct length {
    const char *amiss;
    size_t count, numbers;
    uint32_t past, beyond;
    size_t memory;
    uint8_t channel;
    uint64_t answer;
} lengths[] = {
    {"an empty list", 0, 0, 0, 0, 0, 5, TAKEN},
    {"an empty list, numbers lent", 0, 1, 0, 0, 0, 5, TAKEN},
    {"one move", 1, 1, 0, 0, 0, 5, TAKEN},
    {"one move, more numbers lent", 1, 300, 0, 0, 0, 5, TAKEN},
    {"one move, no number lent", 1, 0, 0, 0, 0, 5, FEW_NUMBERS},
    {"255 moves", 255, 255, 0, 0, 0, 5, TAKEN},
    {"256 moves", 256, 256, 0, 0, 0, 5, TAKEN},
    {"256 moves, more numbers lent", 256, 300, 0, 0, 0, 5, TAKEN},
    {"256 moves, a number too few", 256, 255, 0, 0, 0, 5, FEW_NUMBERS},
    {"257 moves", 257, 257, 0, 0, 0, 5, TOO_MANY},
    {"65537 moves", 65537, 300, 0, 0, 0, 5, TOO_MANY},
    {"33 before all others", 257, 256, 3, 2, 1, 16, TOO_MANY},
    {"34 before 32, 30 and 31", 256, 255, 3, 2, 1, 16, FEW_NUMBERS},
    {"32 of the kind before 30", 256, 256, 3, 0, 1, 5, NOT_SOUND},
    {"30 before 32 of a setting", 256, 256, 0, 0, 1, 16, SHORT},
    {"32 of the kind before 31", 256, 256, 3, 2, 0, 5, NOT_SOUND},
    {"30 before 31", 256, 256, 0, 2, 1, 5, SHORT},
    {"31 before 32 of a setting", 256, 256, 0, 2, 0, 16, NO_PLAYER},
    {"32 of the kind, an empty list", 0, 0, 3, 0, 0, 5, NOT_SOUND},
    {"30, an empty list", 0, 0, 0, 0, 1, 5, SHORT},
    {"31, an empty list", 0, 0, 0, 2, 0, 5, NO_PLAYER},
    {"32 of a setting, an empty list", 0, 0, 0, 0, 0, 16, NOT_SOUND},
};

/* What a screen asks for: `past` and `beyond` are added to kind and player, and of programs and own buffer so many
 * bytes are lent more than must be, or, below 0, less. In the last rows several things are amiss, and the number is
 * what is tested first. */
static const struct screen {
    const char *amiss;
    uint32_t program, own, past, beyond;
    int programs, buffer;
    uint64_t number;
} screens[] = {
    {"program 0", 0, 0, 0, 0, 0, 0, TAKEN},
    {"program 7, more lent", 7, 0, 0, 0, 5, 3, TAKEN},
    {"program 0x23", 0x23, 0, 0, 0, 0, 0, TAKEN},
    {"program 0x24", 0x24, 0, 0, 0, 0, 0, NO_PROGRAM},
    {"program 0x24, more lent", 0x24, 0, 0, 0, 5, 3, NO_PROGRAM},
    {"program 256", 256, 0, 0, 0, 0, 0, NO_PROGRAM},
    {"program 65536", 65536, 0, 0, 0, 0, 0, NO_PROGRAM},
    {"program, the highest", 0xFFFFFFFF, 0, 0, 0, 0, 0, NO_PROGRAM},
    {"the own buffer", 7, 1, 0, 0, 0, 0, TAKEN},
    {"the own buffer, more lent", 7, 1, 0, 0, 5, 3, TAKEN},
    {"the own buffer by 2, program 0x24", 0x24, 2, 0, 0, 0, 0, TAKEN},
    {"the own buffer by 256, program 65536", 65536, 256, 0, 0, 0, 0, TAKEN},
    {"the own buffer by 0x80000000", 0xFFFFFFFF, 0x80000000, 0, 0, 0, 0, TAKEN},
    {"short programs", 0, 0, 0, 0, -1, 0, SHORT},
    {"short programs, the own buffer asked for", 0, 1, 0, 0, -1, 0, SHORT},
    {"a short buffer", 0, 1, 0, 0, 0, -1, SHORT},
    {"a short buffer, a program asked for", 0, 0, 0, 0, 0, -1, SHORT},
    {"no player", 0, 0, 0, 2, 0, 0, NO_PLAYER},
    {"no player, the own buffer asked for", 0, 1, 0, 2, 0, 0, NO_PLAYER},
    {"no player, one if cut to 8 bits", 0, 1, 0, 256, 0, 0, NO_PLAYER},
    {"no player, wide", 0, 0, 0, 0x80000000, 0, 0, NO_PLAYER},
    {"32 of the kind before all others", 0x24, 0, 3, 2, -1, -1, NOT_SOUND},
    {"30 of programs before 31 and 14", 0x24, 0, 0, 2, -1, 0, SHORT},
    {"30 of the buffer before 31 and 14", 0x24, 0, 0, 2, 0, -1, SHORT},
    {"31 before 14", 0x24, 0, 0, 2, 0, 0, NO_PLAYER},
};

static costerbloom_move long_list[65537];
static uint8_t numbers[300];
static uint8_t memory[COSTERBLOOM_MEMORY], marks[COSTERBLOOM_MARKS + 3];
static uint8_t receive[COSTERBLOOM_LONGEST], reply[COSTERBLOOM_LONGEST];
static uint8_t dump[COSTERBLOOM_LONGEST + 1]; /* one that is sent, or a byte more */
static uint8_t own[COSTERBLOOM_BASS_POD_PROGRAM + 3]; /* a player's edit buffer, as a screen lends it */
static uint32_t player; /* who makes the calls, on their socket or by name */
static _Bool wrong;

static void expect(_Bool right, const char *call, const char *what)
{
    if (right)
        return;
    wrong = 1;
    say("calls: ");
    say(call);
    say(": ");
    say(what);
    say("\n");
}

static uint8_t *edit_of(const struct kind *k, uint32_t whose)
{
    return memory + (PROGRAMS + whose) * k->program;
}

/* The answer to the request's last byte. */
static uint64_t identify_by_take(const struct kind *k, const struct arguments *a)
{
    costerbloom_receiver receiver = {0};
    uint64_t answer = 0;
    for (size_t place = 0; place < sizeof request; place++)
        answer = costerbloom_take(&receiver, a->player, request[place], k->number, a->channel, a->omni, a->revision[0],
            a->revision[1], a->revision[2], a->revision[3], memory, k->memory - a->memory, marks, a->marks, receive,
            k->longest - a->receive, reply, k->longest - a->reply);
    return answer;
}

static uint64_t identify_by_whole(const struct kind *k, const struct arguments *a)
{
    return costerbloom_whole(request, sizeof request, a->player, k->number, a->channel, a->omni, a->revision[0],
        a->revision[1], a->revision[2], a->revision[3], memory, k->memory - a->memory, marks, a->marks, reply,
        k->longest - a->reply);
}

static void expect_identity(const struct kind *k, _Bool answered, const char *call)
{
    for (size_t place = 0; place < sizeof k->identity; place++)
        expect(reply[place] == (answered ? k->identity[place] : 0), call, "reply");
}

/* The two calls that may identify. The reply starts from zero at each. */
static void expect_identified(const struct kind *k, const struct arguments *a)
{
    fill(reply, sizeof reply, 0);
    expect(identify_by_take(k, a) == a->take, "take", a->amiss);
    expect_identity(k, a->take == IDENTIFIED, "take");
    fill(reply, sizeof reply, 0);
    expect(identify_by_whole(k, a) == a->whole, "whole", a->amiss);
    expect_identity(k, a->whole == IDENTIFIED, "whole");
}

/* The scene from zero, its numbers filled before. */
static uint64_t move_scene(const struct kind *k, const struct arguments *a)
{
    costerbloom_move moves[SCENE];
    for (size_t move = 0; move < SCENE; move++)
        moves[move] = scenes[k->number].made[move].move;
    fill(memory, sizeof memory, 0);
    fill(numbers, sizeof numbers, FILLED);
    return costerbloom_moves(moves, SCENE, a->player, k->number, a->channel, a->omni, a->revision[0], a->revision[1],
        a->revision[2], a->revision[3], memory, k->memory - a->memory, numbers, SCENE - a->reply);
}

static void expect_scene(const struct kind *k, uint32_t whose, _Bool taken)
{
    const struct scene *scene = &scenes[k->number];
    uint8_t *edit = edit_of(k, whose);
    for (size_t move = 0; move < SCENE; move++)
        expect(numbers[move] == (taken ? scene->made[move].number : FILLED), "moves", "number");
    expect(is_full_of(numbers + SCENE, sizeof numbers - SCENE, FILLED), "moves", "numbers behind the list");
    for (size_t place = 0; place < k->program; place++)
        expect(edit[place] == (taken ? scene->edit[place] : 0), "moves", "the player's edit buffer");
    fill(edit, k->program, 0);
    expect(is_full_of(memory, sizeof memory, 0), "moves", "memory beside the edit buffer");
}

/* The three calls over all rows. */
static void expect_rows(const struct kind *k)
{
    fill(marks, sizeof marks, 1);
    for (const struct arguments *a = rows; a < rows + sizeof rows / sizeof *rows; a++) {
        expect_identified(k, a);
        expect(move_scene(k, a) == a->moves, "moves", a->amiss);
        expect_scene(k, a->player % PLAYERS, a->moves == TAKEN);
    }
}

static void expect_marked(const struct kind *k)
{
    for (const struct marked *m = marked; m < marked + sizeof marked / sizeof *marked; m++) {
        struct kind other = *k;
        struct arguments a = rows[0];
        other.number += m->past;
        a.amiss = m->amiss;
        a.player = m->player;
        a.marks = m->lent;
        a.take = m->take;
        a.whole = m->whole;
        fill(marks, sizeof marks, 1);
        marks[m->place] = m->mark;
        expect_identified(&other, &a);
        expect(marks[m->place] == m->mark, m->amiss, "that mark changes");
        marks[m->place] = 1;
        expect(is_full_of(marks, sizeof marks, 1), m->amiss, "another mark changes");
    }
}

/* Numbers and memory after a list, both filled before. Nothing has changed where it was refused. Else the moves up to
 * 127 are applied and those above are not, and the last that was has stored its value, halved. */
static void expect_moved(const struct kind *k, const struct length *l)
{
    uint8_t *drive = edit_of(k, player) + k->drive;
    size_t made = l->answer == TAKEN ? l->count : 0;
    size_t stored = made == 0 ? FILLED : (made < 128 ? made - 1 : 127) / 2;
    for (size_t move = 0; move < made; move++)
        expect(numbers[move] == (move < 128 ? APPLIED : OUT_OF_RANGE), l->amiss, "number");
    expect(is_full_of(numbers + made, sizeof numbers - made, FILLED), l->amiss, "numbers that are no move's");
    expect(*drive == stored, l->amiss, "what is stored");
    *drive = FILLED;
    expect(is_full_of(memory, sizeof memory, FILLED), l->amiss, "memory beside it");
}

static void expect_lengths(const struct kind *k)
{
    for (size_t move = 0; move < sizeof long_list / sizeof *long_list; move++)
        long_list[move] = (costerbloom_move){13, (uint8_t)move};
    for (const struct length *l = lengths; l < lengths + sizeof lengths / sizeof *lengths; l++) {
        fill(memory, sizeof memory, FILLED);
        fill(numbers, sizeof numbers, FILLED);
        expect(costerbloom_moves(long_list, l->count, player + l->beyond, k->number + l->past, l->channel, 0, 1, 2, 3,
                   4, memory, k->memory - l->memory, numbers, l->numbers) == l->answer,
            "moves", l->amiss);
        expect_moved(k, l);
    }
}

/* A player's byte, whole message, list of one move and value shown back, for a box on channel 0 that lends so much. */
static uint64_t take(costerbloom_receiver *receiver, uint8_t byte, uint32_t kind, size_t most_memory, size_t most)
{
    return costerbloom_take(receiver, player, byte, kind, 0, 0, 1, 2, 3, 4, memory, most_memory, marks,
        COSTERBLOOM_MARKS, receive, most, reply, most);
}

static uint64_t whole(const uint8_t *message, size_t length, uint32_t kind, size_t most_memory, size_t most)
{
    return costerbloom_whole(
        message, length, player, kind, 0, 0, 1, 2, 3, 4, memory, most_memory, marks, COSTERBLOOM_MARKS, reply, most);
}

static uint64_t move(uint32_t kind, size_t most_memory)
{
    return costerbloom_moves(
        long_list, 1, player, kind, 0, 0, 1, 2, 3, 4, memory, most_memory, numbers, sizeof numbers);
}

static uint32_t back(uint32_t controller, uint32_t kind, size_t most_memory)
{
    return costerbloom_back(controller, player, kind, memory, most_memory);
}

/* A kind that is none: 32 at every call, whether or not enough is lent, and nothing changes but the screen's part. */
static void expect_no_kind(uint32_t kind, size_t most_memory, size_t most)
{
    costerbloom_receiver receiver = {.stored = 5, .inside = 1};
    costerbloom_part part = {reply, 1};
    fill(memory, sizeof memory, FILLED);
    fill(marks, sizeof marks, 1);
    fill(receive, sizeof receive, FILLED);
    fill(reply, sizeof reply, FILLED);
    fill(numbers, sizeof numbers, FILLED);
    expect(take(&receiver, 0xF7, kind, most_memory, most) == NOT_SOUND, "take", "a kind that is none");
    expect(take(&receiver, 0x01, kind, most_memory, most) == NOT_SOUND, "take", "a kind that is none");
    expect(whole(request, sizeof request, kind, most_memory, most) == NOT_SOUND, "whole", "a kind that is none");
    expect(move(kind, most_memory) == NOT_SOUND, "moves", "a kind that is none");
    expect(costerbloom_scale(13, 0, kind) == REFUSED + NOT_SOUND, "scale", "a kind that is none");
    expect(costerbloom_scale(200, 200, kind) == REFUSED + NOT_SOUND, "scale", "a kind that is none, before 17");
    expect(back(13, kind, most_memory) == REFUSED + NOT_SOUND, "back", "a kind that is none");
    expect(costerbloom_amp(0, kind) == REFUSED + NOT_SOUND, "amp", "a kind that is none");
    expect(costerbloom_screen(&part, 0, 0, player, kind, memory, most_memory, reply, most) == NOT_SOUND, "screen",
        "a kind that is none");
    expect(part.bytes == memory && part.length == 0, "screen", "the part for a kind that is none");
    expect(receiver.stored == 5 && receiver.inside == 1 && receiver.over == 0 && receiver.running == 0 &&
               receiver.held == 0 && receiver.waiting == 0,
        "take", "a kind that is none changes the receiver");
    expect(is_full_of(memory, sizeof memory, FILLED) && is_full_of(marks, sizeof marks, 1) &&
               is_full_of(receive, sizeof receive, FILLED) && is_full_of(reply, sizeof reply, FILLED) &&
               is_full_of(numbers, sizeof numbers, FILLED),
        "take, whole, moves or screen", "a kind that is none changes a buffer");
}

/* A Bass POD's call with a POD's buffers, and the other two's with a Bass POD's receiver. */
static void expect_apart(void)
{
    costerbloom_receiver open = {.stored = 5500, .inside = 1};
    expect(take(&open, 1, bass->number, pod->memory, bass->longest) == SHORT, "take", "a POD's memory");
    expect(take(&open, 1, bass->number, bass->memory, pod->longest) == SHORT, "take", "a POD's buffers");
    expect(whole(request, 6, bass->number, pod->memory, bass->longest) == SHORT, "whole", "a POD's memory");
    expect(whole(request, 6, bass->number, bass->memory, pod->longest) == SHORT, "whole", "a POD's reply buffer");
    expect(move(bass->number, pod->memory) == SHORT, "moves", "a POD's memory");
    expect(back(13, bass->number, pod->memory) == REFUSED + SHORT, "back", "a POD's memory");
    expect(take(&open, 1, pod->number, bass->memory, bass->longest) == NOT_SOUND, "take", "5500 bytes stored on a POD");
    expect(take(&open, 1, pro->number, bass->memory, bass->longest) == NOT_SOUND, "take", "5500 stored on a POD Pro");
    expect(take(&open, 1, bass->number, bass->memory, bass->longest) == TAKEN, "take", "5500 stored on a Bass POD");
}

/* What a dump and a request begin with: all before the version, or before F7. */
static size_t head_length(const struct named *n)
{
    return n->type == 0 ? 8 : 7;
}

static void make_head(const struct kind *k, const struct named *n, uint8_t opcode, uint8_t *message)
{
    const uint8_t head[] = {0xF0, 0, 1, 0x0C, k->device, opcode, n->type, n->program};
    for (size_t place = 0; place < head_length(n); place++)
        message[place] = head[place];
}

/* Makes the dump, with so many bytes of each program, and gives its length. */
static size_t make_dump(const struct kind *k, const struct named *n, size_t sent)
{
    size_t length = head_length(n), end = length + 1 + 2 * sent * n->programs;
    make_head(k, n, 1, dump);
    dump[length++] = 0;
    for (; length < end; length++)
        dump[length] = (uint8_t)((7 * length + length / 16) % 16);
    dump[length++] = 0xF7;
    return length;
}

/* A message goes to a box byte by byte, or whole. */
static uint64_t send(const struct kind *k, const uint8_t *message, size_t length, _Bool by_bytes)
{
    costerbloom_receiver receiver = {0};
    uint64_t answer = TAKEN;
    if (!by_bytes)
        return whole(message, length, k->number, k->memory, k->longest);
    for (size_t place = 0; place < length; place++)
        answer = take(&receiver, message[place], k->number, k->memory, k->longest);
    return answer;
}

/* The first program of what a message of the player names, with the edit buffers numbered behind the programs. */
static size_t first_of(const struct named *n)
{
    return n->type == 1 ? PROGRAMS + player : n->program;
}

static _Bool is_named(const struct named *n, size_t program)
{
    return program >= first_of(n) && program < first_of(n) + n->programs;
}

/* What a place of memory holds where the dump is stored: what has come, in a spare byte that has not come 0, and what
 * it held before in all that the dump does not name. */
static uint8_t stored_at(const struct kind *k, const struct named *n, size_t sent, size_t place)
{
    size_t program = place / k->program, byte = place % k->program;
    if (!is_named(n, program))
        return FILLED;
    if (byte >= sent)
        return 0;
    const uint8_t *halves = dump + head_length(n) + 1 + 2 * ((program - first_of(n)) * sent + byte);
    return (uint8_t)(halves[0] << 4 | halves[1]);
}

/* A dump that is stored: it sets the marks of what it names, or clears them, but on a Bass POD none. */
static void expect_stored(const struct kind *k, const struct named *n, size_t sent, uint8_t before, _Bool by_bytes)
{
    fill(memory, sizeof memory, FILLED);
    fill(marks, sizeof marks, before);
    size_t length = make_dump(k, n, sent);
    expect(send(k, dump, length, by_bytes) == STORED, by_bytes ? "take" : "whole", "a dump");
    for (size_t place = 0; place < sizeof memory; place++)
        expect(memory[place] == stored_at(k, n, sent, place), "a dump", "what is stored");
    for (size_t place = 0; place < sizeof marks; place++)
        expect(marks[place] == (k->spare && is_named(n, place) ? sent == k->program : before), "a dump", "marks");
}

/* A request that is answered with so many bytes of each program, which are memory's. */
static void expect_reply(const struct kind *k, const struct named *n, size_t sent, _Bool by_bytes)
{
    uint8_t ask[9];
    size_t head = head_length(n), end = head + 1 + 2 * sent * n->programs;
    make_head(k, n, 0, ask);
    ask[head] = 0xF7;
    fill(reply, sizeof reply, FILLED);
    uint64_t answer = send(k, ask, head + 1, by_bytes);
    expect(answer == REPLIED + ((end + 1) << 8), by_bytes ? "take" : "whole", "a request");
    for (size_t place = 0; place < head; place++)
        expect(reply[place] == (place == 5 ? 1 : ask[place]), "a reply", "how it begins");
    expect(reply[head] == 0 && reply[end] == 0xF7, "a reply", "version and F7");
    for (size_t place = 0; place < sent * n->programs; place++) {
        uint8_t byte = memory[(first_of(n) + place / sent) * k->program + place % sent];
        const uint8_t *halves = reply + head + 1 + 2 * place;
        expect(halves[0] == byte >> 4 && halves[1] == (byte & 15), "a reply", "its data");
    }
    expect(is_full_of(reply + end + 1, sizeof reply - end - 1, FILLED), "a reply", "what is behind it");
}

/* A dump that is refused, whatever the marks. */
static void expect_refused(const struct kind *k, size_t length, uint64_t number)
{
    for (uint8_t turn = 0; turn < 4; turn++) {
        _Bool by_bytes = turn / 2;
        fill(memory, sizeof memory, FILLED);
        fill(marks, sizeof marks, turn % 2);
        expect(send(k, dump, length, by_bytes) == number, by_bytes ? "take" : "whole", "a dump that is wrong");
        expect(is_full_of(memory, sizeof memory, FILLED), "a refused dump", "memory changes");
        expect(is_full_of(marks, sizeof marks, turn % 2), "a refused dump", "a mark changes");
    }
}

/* A dump of a length that is taken, with a version, a data byte, a program or, at last, another length that is not. */
static void expect_spoiled(const struct kind *k, const struct named *n, size_t sent)
{
    size_t length = make_dump(k, n, sent), version = head_length(n);
    dump[version] = 1;
    expect_refused(k, length, WRONG_VERSION);
    dump[version] = 0;
    dump[length - 2] |= 0x10;
    expect_refused(k, length, ABOVE_0F);
    dump[7] = 0x24;
    if (n->type == 0)
        expect_refused(k, length, NO_PROGRAM);
    dump[length - 2] = 0xF7;
    expect_refused(k, length - 1, WRONG_LENGTH);
    dump[length - 2] = dump[length - 1] = 0;
    dump[length] = 0xF7;
    expect_refused(k, length + 1, length == k->longest ? TOO_LONG : WRONG_LENGTH);
}

/* All programs, of which one lacks its spare byte, or one alone has it. */
static void expect_uneven(const struct kind *k)
{
    size_t longer = make_dump(k, all_programs, 72), shorter = make_dump(k, all_programs, 71);
    dump[shorter - 1] = dump[shorter] = 0;
    dump[shorter + 1] = 0xF7;
    expect_refused(k, shorter + 2, WRONG_LENGTH);
    make_dump(k, all_programs, 72);
    dump[longer - 3] = 0xF7;
    expect_refused(k, longer - 2, WRONG_LENGTH);
}

/* Dumps of every type, in and out, with the bytes that a unit of this kind may send of a program; with one less the
 * length is wrong. */
static void expect_dumps(const struct kind *k)
{
    for (const struct named *n = names; n < names_end; n++) {
        size_t shorter = k->program - k->spare;
        for (uint8_t turn = 0; turn < 8; turn++) {
            size_t sent = turn < 4 ? k->program : shorter;
            expect_stored(k, n, sent, turn % 2, turn / 2 % 2);
            expect_reply(k, n, sent, turn / 2 % 2);
        }
        expect_spoiled(k, n, k->program);
        expect_spoiled(k, n, shorter);
        expect_refused(k, make_dump(k, n, shorter - 1), WRONG_LENGTH);
    }
}

/* Never 0. */
static uint8_t held_at(size_t place)
{
    return (uint8_t)((5 * place + place / 256) | 1);
}

static void hold(void)
{
    for (size_t place = 0; place < sizeof memory; place++)
        memory[place] = held_at(place);
}

/* One mark against all others, set or clear: a reply is long where all marks are set of what is asked for, and on a
 * Bass POD always. No byte of memory is 0, and none changes, a spare one neither. */
static void expect_replies(const struct kind *k)
{
    hold();
    for (size_t turn = 0; turn < 2 * COSTERBLOOM_MARKS; turn++) {
        uint8_t others = turn % 2, *mark = &marks[turn / 2];
        fill(marks, sizeof marks, others);
        *mark = !others;
        for (const struct named *n = names; n < names_end; n++) {
            _Bool is_long = is_full_of(marks + first_of(n), n->programs, 1);
            expect_reply(k, n, is_long ? k->program : k->program - k->spare, turn / 2 % 2);
        }
        expect(*mark == !others, "a request", "that mark changes");
        *mark = others;
        expect(is_full_of(marks, sizeof marks, others), "a request", "another mark changes");
    }
    for (size_t place = 0; place < sizeof memory; place++)
        expect(memory[place] == held_at(place), "a request", "memory changes");
}

/* A controller, program changes, an identity request, and a dump that is cut: none moves a mark, whether that of the
 * player's edit buffer is set alone or clear alone. */
static void expect_left(const struct kind *k)
{
    static const uint8_t bytes[] = {
        0xB0, 13, 127, 0xC0, 1, 36, 0xF0, 0x7E, 0, 6, 1, 0xF7, 0xF0, 0, 1, 0x0C, 1, 1, 1, 0, 5, 0xF6, 0xFF};
    for (uint8_t others = 0; others < 2; others++) {
        costerbloom_receiver receiver = {0};
        uint8_t *own = &marks[PROGRAMS + player];
        fill(marks, sizeof marks, others);
        *own = !others;
        for (size_t place = 0; place < sizeof bytes; place++)
            take(&receiver, bytes[place], k->number, k->memory, k->longest);
        expect(*own == !others, "take", "what is no dump moves the player's mark");
        *own = others;
        expect(is_full_of(marks, sizeof marks, others), "take", "what is no dump moves another mark");
    }
}

/* A dump of program 0x23, taken by every kind that has its device byte, and by no other. */
static void expect_dump(const struct kind *k)
{
    size_t length = make_dump(k, last_program, k->program);
    for (const struct kind *other = kinds; other < kinds_end; other++) {
        uint64_t number = other->device == k->device ? STORED : NOT_OURS;
        expect(whole(dump, length, other->number, sizeof memory, sizeof reply) == number, "whole", "another's dump");
    }
    expect(send(k, dump, length, 1) == STORED, "take", "a dump");
}

/* Every program change: 1 to 36 brings program 0 to 35 into the player's edit buffer on a Bass POD, no other does
 * anything. The other player's stays. */
static void expect_changes(const struct kind *k)
{
    const uint8_t *edit = edit_of(k, player);
    costerbloom_receiver receiver = {.running = 0xC0};
    uint8_t before[COSTERBLOOM_BASS_POD_PROGRAM] = {0};
    for (uint8_t program = 0; program < 128; program++) {
        uint64_t answer = take(&receiver, program, k->number, k->memory, k->longest);
        _Bool taken = k == bass && program >= 1 && program <= 36;
        expect(answer == (taken ? STORED : NO_CONTROLLER), "take", "a program change");
        const uint8_t *now = taken ? memory + (program - 1) * k->program : before;
        for (size_t place = 0; place < k->program; place++) {
            expect(edit[place] == now[place], "take", "what a program change does");
            before[place] = edit[place];
        }
        expect(is_full_of(edit_of(k, !player), k->program, 0), "take", "a program change of the other player");
    }
}

/* A controller that comes byte by byte is stored in the player's edit buffer alone. */
static void expect_controller(const struct kind *k)
{
    costerbloom_receiver receiver = {.running = 0xB0, .held = 1, .waiting = 13};
    uint8_t *drive = edit_of(k, player) + k->drive;
    fill(memory, sizeof memory, FILLED);
    expect(take(&receiver, 127, k->number, k->memory, k->longest) == APPLIED, "take", "a controller");
    expect(*drive == 63, "take", "what a controller stores");
    *drive = FILLED;
    expect(is_full_of(memory, sizeof memory, FILLED), "take", "memory beside what a controller stores");
}

/* The player's edit buffer is asked for at the end: on a Bass POD it is now the last program. */
static void expect_programs(const struct kind *k)
{
    fill(memory, sizeof memory, 0);
    fill(marks, sizeof marks, 1);
    expect_dump(k);
    expect_changes(k);
    expect_reply(k, edit_buffer, k->program, 0);
}

/* Bench cases of document 01, the least number of Req 01, and numbers that must not be cut to a byte. */
static void expect_numbers(void)
{
    uint8_t *edit = edit_of(pod, player);
    fill(memory, sizeof memory, 0);
    expect(costerbloom_scale(51, 127, 0) == 6350, "scale", "51 at 127");
    expect(costerbloom_scale(56, 0, 0) == 100, "scale", "56 at 0");
    expect(costerbloom_scale(51, 0, 0) == 200, "scale", "51 at 0");
    expect(costerbloom_scale(256 + 51, 127, 0) == REFUSED + 17, "scale", "307 at 127");
    expect(costerbloom_scale(51, 256 + 127, 0) == REFUSED + 18, "scale", "51 at 383");
    edit[9] = 63;
    edit[0] = 2;
    expect(back(13, 0, 2736) == 126, "back", "13 from 63");
    expect(back(25, 0, 2736) == REFUSED + 40, "back", "25 from 2");
    expect(back(256 + 13, 0, 2736) == REFUSED + 17, "back", "269");
    expect(back(55, 0, 2736) == REFUSED + 19, "back", "55 with byte 46 at 0");
    expect(back(13, 0, 2735) == REFUSED + 30, "back", "a memory of 2735 bytes");
}

/* The same of a Bass POD: 12>3 and 19>49 up to 15, 64>2 by v/64, 13>4 by v/2, and no others. */
static void expect_bass_numbers(void)
{
    uint8_t *edit = edit_of(bass, player);
    fill(memory, sizeof memory, 0);
    expect(costerbloom_scale(12, 15, 1) == 15, "scale", "12 at 15 on a Bass POD");
    expect(costerbloom_scale(19, 16, 1) == REFUSED + 18, "scale", "19 at 16 on a Bass POD");
    expect(costerbloom_scale(64, 127, 1) == 1, "scale", "64 at 127 on a Bass POD");
    expect(costerbloom_scale(51, 127, 1) == REFUSED + 17, "scale", "51 at 127 on a Bass POD");
    edit[4] = 63;
    edit[3] = 16;
    expect(back(13, 1, 3040) == 126, "back", "13 from 63 on a Bass POD");
    expect(back(12, 1, 3040) == REFUSED + 40, "back", "12 from 16 on a Bass POD");
    expect(back(30, 1, 3040) == REFUSED + 17, "back", "30 on a Bass POD");
    expect(back(13, 1, 3039) == REFUSED + 30, "back", "a memory of 3039 bytes");
}

/* The same of a POD Pro: 9>35 by v/2, which no other kind has, and else as a POD. */
static void expect_pro_numbers(void)
{
    uint8_t *edit = edit_of(pro, player);
    fill(memory, sizeof memory, 0);
    expect(costerbloom_scale(9, 127, 2) == 63, "scale", "9 at 127 on a POD Pro");
    expect(costerbloom_scale(9, 128, 2) == REFUSED + 18, "scale", "9 at 128 on a POD Pro");
    expect(costerbloom_scale(9, 127, 0) == REFUSED + 17, "scale", "9 at 127 on a POD");
    expect(costerbloom_scale(9, 127, 1) == REFUSED + 17, "scale", "9 at 127 on a Bass POD");
    expect(costerbloom_scale(51, 127, 2) == 6350, "scale", "51 at 127 on a POD Pro");
    edit[35] = 63;
    expect(back(9, 2, 2736) == 126, "back", "9 from 63 on a POD Pro");
    expect(back(9, 0, 2736) == REFUSED + 17, "back", "9 on a POD");
    expect(back(9, 1, 3040) == REFUSED + 17, "back", "9 on a Bass POD");
    expect(back(9, 2, 2735) == REFUSED + 30, "back", "a POD Pro's memory of 2735 bytes");
}

/* Which amp models are known, numbers that must not be cut among them: controller 12 takes these, and no others. */
static void expect_models(const struct kind *k)
{
    static const uint32_t models[] = {0, 15, 16, 27, 28, 31, 32, 127, 128, 255, 256, 65536, 0xFFFFFFFF};
    for (size_t i = 0; i < sizeof models / sizeof *models; i++) {
        _Bool known = models[i] <= k->last_model;
        expect(costerbloom_amp(models[i], k->number) == known, "amp", "a model");
        expect(costerbloom_scale(12, models[i], k->number) == (known ? models[i] : REFUSED + 18), "scale", "a model");
    }
}

/* A dump is stored and sent again with any amp model, and from the stored byte the box says whether it is known. */
static void expect_stored_models(const struct kind *k)
{
    const uint8_t *stored = edit_of(k, player) + k->amp;
    size_t length = make_dump(k, edit_buffer, k->program);
    uint8_t *halves = dump + head_length(edit_buffer) + 1 + 2 * k->amp;
    for (uint32_t model = 0; model < 256; model++) {
        _Bool known = model <= k->last_model;
        halves[0] = (uint8_t)(model >> 4);
        halves[1] = model & 15;
        expect(send(k, dump, length, model % 2) == STORED && *stored == model, "a dump", "any amp model");
        expect_reply(k, edit_buffer, k->program, model % 2);
        expect(costerbloom_amp(*stored, k->number) == known, "amp", "a stored model");
        expect(back(12, k->number, k->memory) == (known ? model : REFUSED + 40), "back", "a model");
    }
}

/* Either unit's dump may be stored in either: what one sends of all its programs the other stores, and then has. */
static void expect_exchanged(const struct kind *from, const struct kind *to)
{
    hold();
    fill(marks, sizeof marks, 1);
    expect_reply(from, all_programs, from->program, 0);
    for (size_t place = 0; place < from->longest; place++)
        dump[place] = reply[place];
    fill(memory, sizeof memory, 0);
    expect(send(to, dump, to->longest, 1) == STORED, "take", "a dump from a POD to a POD Pro, or back");
    for (size_t place = 0; place < PROGRAMS * to->program; place++)
        expect(memory[place] == held_at(place), "a dump from a POD to a POD Pro, or back", "what is stored");
}

/* A value is shown back from the player's own edit buffer; and what is tested first, where several things are amiss. */
static void expect_backs(const struct kind *k)
{
    fill(memory, sizeof memory, 0xFF);
    edit_of(k, player)[k->drive] = 20;
    edit_of(k, !player)[k->drive] = 30;
    expect(back(13, k->number, k->memory) == 40, "back", "the player's own");
    expect(costerbloom_back(13, !player, k->number, memory, k->memory) == 60, "back", "the other player's");
    expect(costerbloom_back(200, 2, k->number + 3, memory, 0) == REFUSED + NOT_SOUND, "back", "32 before all others");
    expect(costerbloom_back(200, 2, k->number, memory, k->memory - 1) == REFUSED + SHORT, "back", "30 before 31");
    expect(costerbloom_back(200, 2, k->number, memory, k->memory) == REFUSED + NO_PLAYER, "back", "31 before 17");
    expect(costerbloom_back(55, 2, k->number, memory, k->memory) == REFUSED + NO_PLAYER, "back", "31 before 19");
    expect(costerbloom_back(12, 2, k->number, memory, k->memory) == REFUSED + NO_PLAYER, "back", "31 before 40");
    expect(back(12, k->number, k->memory) == REFUSED + 40, "back", "12 from 0xFF");
}

/* The screen is handed that part of what it has lent, or an empty one of the programs, whatever the part was before. */
static void expect_part(const struct kind *k, const struct screen *s)
{
    costerbloom_part part = {own + 1, 2};
    uint64_t number = costerbloom_screen(&part, s->program, s->own, player + s->beyond, k->number + s->past, memory,
        PROGRAMS * k->program + (size_t)s->programs, own, k->program + (size_t)s->buffer);
    _Bool handed = s->number == TAKEN;
    const uint8_t *shown = s->own ? own : memory + s->program * k->program;
    expect(number == s->number, "screen", s->amiss);
    expect(part.bytes == (handed ? shown : memory), s->amiss, "where the screen's part begins");
    expect(part.length == (handed ? k->program : 0), s->amiss, "the length of the screen's part");
}

/* Nothing of what it has lent changes. */
static void expect_screens(const struct kind *k)
{
    hold();
    fill(own, sizeof own, FILLED);
    for (const struct screen *s = screens; s < screens + sizeof screens / sizeof *screens; s++)
        expect_part(k, s);
    for (uint32_t program = 0; program < PROGRAMS; program++)
        expect_part(k, &(struct screen){"each program", program, 0, 0, 0, 0, 0, TAKEN});
    for (size_t place = 0; place < sizeof memory; place++)
        expect(memory[place] == held_at(place), "screen", "a byte of the programs changes");
    expect(is_full_of(own, sizeof own, FILLED), "screen", "a byte of the own buffer changes");
}

/* A player who is none: 31 at every message, also at one that names no edit buffer, is too long or not ours. */
static void expect_no_player(const struct kind *k)
{
    for (const struct named *n = names; n < names_end; n++)
        expect_refused(k, make_dump(k, n, k->program), NO_PLAYER);
    expect_refused(k, sizeof dump, NO_PLAYER);
    expect_refused(k, 1, NO_PLAYER);
    expect(move(k->number, k->memory) == NO_PLAYER, "moves", "a player who is none");
    expect(back(13, k->number, k->memory) == REFUSED + NO_PLAYER, "back", "a player who is none");
}

/* All that is tried of one player. */
static void expect_player(void)
{
    for (const struct kind *k = kinds; k < kinds_end; k++) {
        expect_lengths(k);
        expect_controller(k);
        expect_programs(k);
        expect_dumps(k);
        expect_replies(k);
        expect_left(k);
        expect_stored_models(k);
        expect_backs(k);
        expect_screens(k);
    }
    expect_uneven(pod);
    expect_uneven(pro);
    expect_apart();
    expect_exchanged(pod, pro);
    expect_exchanged(pro, pod);
    expect_numbers();
    expect_bass_numbers();
    expect_pro_numbers();
}

int main(void)
{
    for (const struct kind *k = kinds; k < kinds_end; k++) {
        expect_rows(k);
        expect_marked(k);
        expect_models(k);
    }
    for (size_t i = 0; i < sizeof no_kinds / sizeof *no_kinds; i++) {
        expect_no_kind(no_kinds[i], sizeof memory, sizeof reply);
        expect_no_kind(no_kinds[i], 0, 0);
    }
    for (player = 0; player < PLAYERS; player++)
        expect_player();
    for (size_t i = 0; i < sizeof no_players / sizeof *no_players; i++)
        for (const struct kind *k = kinds; k < kinds_end; k++) {
            player = no_players[i];
            expect_no_player(k);
        }
    return wrong;
}
