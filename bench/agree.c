/* Whether the plain side is the same box: every value scaled, bytes of the edit buffers shown back, amp models, every
 * program on the screen, then random calls to both, lists of moves of every length among them, compared in every bit
 * that is left. Every kind, both players, and numbers that are neither. */
#include "side.h"

/* Lists have 0 to 257 moves, one more than is taken: so many lengths. */
enum { KINDS = 3, NO_KINDS = 4, PLAYERS = 2, NO_PLAYERS = 4, LENGTHS = COSTERBLOOM_MOST_MOVES + 2 };

/* One past the kinds or the players, some that are one if they are cut, and the highest. */
static const uint32_t NO_KIND[NO_KINDS] = {3, 256, 65537, 0xFFFFFFFF};
static const uint32_t NO_PLAYER[NO_PLAYERS] = {2, 256, 65537, 0xFFFFFFFF};

/* What the random calls must know of each kind. */
static const struct {
    size_t program, memory, longest;
    uint8_t device;
} KIND[KINDS] = {
    {COSTERBLOOM_POD_PROGRAM, COSTERBLOOM_POD_MEMORY, COSTERBLOOM_POD_LONGEST, 1},
    {COSTERBLOOM_BASS_POD_PROGRAM, COSTERBLOOM_BASS_POD_MEMORY, COSTERBLOOM_BASS_POD_LONGEST, 2},
    {COSTERBLOOM_POD_PRO_PROGRAM, COSTERBLOOM_POD_PRO_MEMORY, COSTERBLOOM_POD_PRO_LONGEST, 1},
};

static uint32_t another_kind(uint32_t kind, uint64_t *seed)
{
    return (kind + 1 + below(seed, KINDS - 1)) % KINDS;
}

static size_t edit_of(uint32_t kind, uint32_t player)
{
    return COSTERBLOOM_EDIT_OF(KIND[kind].program, player);
}

/* The arguments of a call; a byte comes on its player's socket. The mark at a place has other bits for it, which make
 * it none; where they are 0 it stays. */
typedef struct {
    uint32_t player, kind;
    uint8_t channel, omni, revision3, other_bits;
    size_t memory, marks, receive, reply, place;
} given;

/* All in range, with the shortest buffers that the kind allows, but for up to three marks more. */
static given any_given(uint32_t kind, uint64_t *seed)
{
    return (given){below(seed, PLAYERS), kind, (uint8_t)below(seed, 2), (uint8_t)below(seed, 2), 0x7F, 0,
        KIND[kind].memory, COSTERBLOOM_MARKS + below(seed, 4), KIND[kind].longest, KIND[kind].longest, 0};
}

/* One thing outside its range, a player beside something else that is, or a kind that is none, whatever the buffers. */
static given any_amiss(uint32_t kind, uint64_t *seed)
{
    static const uint8_t OTHER_BITS[] = {2, 0x80, 0xFE};
    given g = any_given(kind, seed);
    if (below(seed, 4) == 0)
        g.player = NO_PLAYER[below(seed, NO_PLAYERS)];
    switch (below(seed, 11)) {
        case 0: g.player = NO_PLAYER[below(seed, NO_PLAYERS)]; break;
        case 1: g.channel = 16; break;
        case 2: g.omni = 2; break;
        case 3: g.revision3 = 0x80; break;
        case 4: g.memory--; break;
        case 5: g.receive--; break;
        case 6: g.reply--; break;
        case 7: g.marks = COSTERBLOOM_MARKS - 1; break;
        case 8:
            g.place = below(seed, COSTERBLOOM_MARKS);
            g.other_bits = OTHER_BITS[below(seed, sizeof OTHER_BITS)];
            break;
        case 9: g.kind = NO_KIND[below(seed, NO_KINDS)]; break;
        default:
            g.kind = NO_KIND[below(seed, NO_KINDS)];
            g.memory = g.marks = g.receive = g.reply = 0;
    }
    return g;
}

static costerbloom_receiver any_receiver(uint64_t *seed)
{
    static const uint16_t STORED[] = {0, 0, 0, 1, 2, 8, 152, 5191, 5192, 5193, 5767, 5768, 5769, 65535};
    static const uint8_t FLAG[] = {0, 0, 0, 1, 1, 2},
                         RUNNING[] = {0, 0, 0x7F, 0x80, 0xB0, 0xBF, 0xC0, 0xDF, 0xEF, 0xF0};
    return (costerbloom_receiver){STORED[below(seed, sizeof STORED / sizeof *STORED)], FLAG[below(seed, 6)],
        FLAG[below(seed, 4)], RUNNING[below(seed, 10)], FLAG[below(seed, 6)],
        below(seed, 3) ? 0 : (uint8_t)below(seed, 256)};
}

/* Some marks, the same on both sides: as they were left, all set or all clear, one set or clear alone, often an edit
 * buffer's, or any; behind them anything. */
static void mark_both(box *a, box *b, uint64_t *seed)
{
    uint32_t how = below(seed, 6);
    for (size_t i = 0; how < 5 && i < COSTERBLOOM_MARKS; i++)
        a->marks[i] = how < 4 ? how % 2 : (uint8_t)below(seed, 2);
    if (how == 2 || how == 3)
        a->marks[below(seed, 2) ? below(seed, COSTERBLOOM_MARKS) : 36 + below(seed, PLAYERS)] ^= 1;
    for (size_t i = COSTERBLOOM_MARKS; i < sizeof a->marks; i++)
        a->marks[i] = (uint8_t)below(seed, 256);
    __builtin_memcpy(b->marks, a->marks, sizeof a->marks);
}

/* Before a call, and once more behind it: the mark is then what it was. */
static void change_mark(box *a, box *b, const given *g)
{
    a->marks[g->place] ^= g->other_bits;
    b->marks[g->place] ^= g->other_bits;
}

static int take_same(box *a, box *b, uint8_t byte, const given *g)
{
    change_mark(a, b, g);
    uint64_t x = tried.take(&a->receiver, g->player, byte, g->kind, g->channel, g->omni, 1, 2, 3, g->revision3,
        a->memory, g->memory, a->marks, g->marks, a->receive, g->receive, a->reply, g->reply);
    uint64_t y = plain_take(&b->receiver, g->player, byte, g->kind, g->channel, g->omni, 1, 2, 3, g->revision3,
        b->memory, g->memory, b->marks, g->marks, b->receive, g->receive, b->reply, g->reply);
    change_mark(a, b, g);
    return x == y && same_receiver(&a->receiver, &b->receiver) && same(a->marks, b->marks, sizeof a->marks);
}

static int whole_same(box *a, box *b, const uint8_t *message, size_t length, const given *g)
{
    change_mark(a, b, g);
    uint64_t x = tried.whole(message, length, g->player, g->kind, g->channel, g->omni, 1, 2, 3, g->revision3, a->memory,
        g->memory, a->marks, g->marks, a->reply, g->reply);
    uint64_t y = plain_whole(message, length, g->player, g->kind, g->channel, g->omni, 1, 2, 3, g->revision3, b->memory,
        g->memory, b->marks, g->marks, b->reply, g->reply);
    change_mark(a, b, g);
    return x == y && same(a->marks, b->marks, sizeof a->marks);
}

/* The numbers go to the reply buffer, of which so much is lent. */
static int moves_same(box *a, box *b, const costerbloom_move *moves, size_t count, size_t lent, const given *g)
{
    return tried.moves(moves, count, g->player, g->kind, g->channel, g->omni, 1, 2, 3, g->revision3, a->memory,
               g->memory, a->reply, lent) == plain_moves(moves, count, g->player, g->kind, g->channel, g->omni, 1, 2, 3,
                                                 g->revision3, b->memory, g->memory, b->reply, lent) &&
           same_box(a, b);
}

static int scales_same(uint32_t kind)
{
    for (uint32_t controller = 0; controller < 140; controller++)
        for (uint32_t value = 0; value < 140; value++)
            if (tried.scale(controller, value, kind) != plain_scale(controller, value, kind))
                return 0;
    return 1;
}

static int shows_same(const uint8_t *memory, uint32_t player, uint32_t kind, uint32_t first, uint32_t last)
{
    for (uint32_t controller = first; controller <= last; controller++)
        if (tried.back(controller, player, kind, memory, KIND[kind].memory) !=
            plain_back(controller, player, kind, memory, KIND[kind].memory))
            return 0;
    return 1;
}

/* A POD or a POD Pro: each effect's fields at every number up to the highest that a formula gives. A field of two bytes
 * begins at an even place or at an odd one; each number stands at both, one after the other. */
static int fields_same(uint32_t player, uint32_t kind)
{
    enum { HIGHEST = 6350 };
    static const uint8_t SELECTING[] = {14, 7, 0, 2, 5};
    static uint8_t memory[COSTERBLOOM_MEMORY];
    uint8_t *edit = memory + edit_of(kind, player);
    for (size_t effect = 0; effect < sizeof SELECTING; effect++) {
        edit[46] = SELECTING[effect];
        for (uint32_t turn = 0; turn <= 2 * HIGHEST + 1; turn++) {
            for (uint32_t place = 48; place <= 54; place++)
                edit[place] = (uint8_t)(place % 2 == turn % 2 ? turn / 2 : turn / 2 / 256);
            if (!shows_same(memory, player, kind, 42, 59))
                return 0;
        }
    }
    return 1;
}

/* Every number in each byte of the player's edit buffer, another one beside it. */
static int numbers_same(uint32_t player, uint32_t kind)
{
    static uint8_t memory[COSTERBLOOM_MEMORY];
    uint8_t *edit = memory + edit_of(kind, player);
    for (uint32_t number = 0; number < 256; number++) {
        for (size_t place = 0; place < KIND[kind].program; place++)
            edit[place] = (uint8_t)(number + place);
        if (!shows_same(memory, player, kind, 0, 140))
            return 0;
    }
    return 1;
}

/* Every byte as an amp model, and numbers that are the same byte if they are cut. */
static int amps_same(uint32_t kind)
{
    static const uint32_t ABOVE[] = {0, 256, 65536, 0x80000000, 0xFFFFFF00};
    for (size_t i = 0; i < sizeof ABOVE / sizeof *ABOVE; i++)
        for (uint32_t byte = 0; byte < 256; byte++)
            if (tried.amp(ABOVE[i] + byte, kind) != plain_amp(ABOVE[i] + byte, kind))
                return 0;
    return 1;
}

/* What a screen asks for. Programs and own buffer lie in one memory, so many bytes from its front and so many from a
 * place on. */
typedef struct {
    uint32_t program, own, player, kind;
    size_t programs, place, buffer;
} asked;

/* As much is lent as must be, now and then a byte less, and now and then all up to the end of memory. */
static size_t any_lent(size_t least, size_t most, uint64_t *seed)
{
    uint32_t how = below(seed, 12);
    return how == 0 ? least - 1 : how == 1 ? most : least;
}

static asked any_asked(const given *g, uint32_t kind, uint64_t *seed)
{
    static const uint32_t OWN[] = {0, 0, 0, 1, 256, 0x80000000}, NO_PROGRAM[] = {36, 256, 65536, 0xFFFFFFFF};
    size_t memory = KIND[kind].memory, place = edit_of(kind, g->player % PLAYERS);
    return (asked){below(seed, 8) ? below(seed, 36) : NO_PROGRAM[below(seed, 4)], OWN[below(seed, 6)], g->player,
        g->kind, any_lent(edit_of(kind, 0), memory, seed), place,
        any_lent(KIND[kind].program, memory - place, seed)};
}

/* Every bit of the part is written, whatever it was before. */
static int screen_same(const box *a, const box *b, const asked *s)
{
    costerbloom_part x = {a->reply, 1}, y = {b->reply, 2};
    return tried.screen(&x, s->program, s->own, s->player, s->kind, a->memory, s->programs, a->memory + s->place,
               s->buffer) == plain_screen(&y, s->program, s->own, s->player, s->kind, b->memory, s->programs,
                                 b->memory + s->place, s->buffer) &&
           x.bytes - a->memory == y.bytes - b->memory && x.length == y.length;
}

/* Each program, the one behind them too, and the own buffer. */
static int screens_same(uint32_t player, uint32_t kind)
{
    static const box a, b;
    for (uint32_t program = 0; program <= 36; program++)
        for (uint32_t own = 0; own < 2; own++) {
            asked s = {program, own, player, kind, edit_of(kind, 0), edit_of(kind, player), KIND[kind].program};
            if (!screen_same(&a, &b, &s))
                return 0;
        }
    return 1;
}

int panel_agrees(void)
{
    for (size_t i = 0; i < NO_KINDS; i++)
        if (!scales_same(NO_KIND[i]) || !amps_same(NO_KIND[i]))
            return 0;
    for (uint32_t kind = 0; kind < KINDS; kind++) {
        if (!scales_same(kind) || !amps_same(kind))
            return 0;
        for (uint32_t player = 0; player < PLAYERS; player++)
            if (!numbers_same(player, kind) || !screens_same(player, kind))
                return 0;
    }
    return fields_same(COSTERBLOOM_PLAYER_ONE, COSTERBLOOM_POD) &&
           fields_same(COSTERBLOOM_PLAYER_TWO, COSTERBLOOM_POD_PRO);
}

static int panel_same(const box *a, const box *b, const given *g, uint32_t kind, uint64_t *seed)
{
    uint32_t controller = below(seed, 140), value = below(seed, 140);
    asked s = any_asked(g, kind, seed);
    return tried.scale(controller, value, g->kind) == plain_scale(controller, value, g->kind) &&
           tried.back(controller, g->player, g->kind, a->memory, g->memory) ==
               plain_back(controller, g->player, g->kind, b->memory, g->memory) &&
           screen_same(a, b, &s);
}

static size_t put(uint8_t *message, const uint8_t *bytes, size_t count)
{
    __builtin_memcpy(message, bytes, count);
    return count;
}

/* A request or a dump of any form, often with one thing wrong. Every second dump has a byte less of each program: on a
 * POD or a POD Pro it is a short one. */
static size_t any_sysex(uint8_t *message, uint32_t kind, uint64_t *seed)
{
    const uint8_t header[] = {0xF0, 0x00, 0x01, 0x0C, KIND[kind].device};
    uint32_t opcode = below(seed, 9) / 4, type = below(seed, 10) / 3, wrong = below(seed, 7);
    size_t length = put(message, header, sizeof header);
    message[length++] = (uint8_t)opcode;
    message[length++] = (uint8_t)type;
    if (type == 0)
        message[length++] = (uint8_t)below(seed, 38);
    if (opcode == 1) {
        message[length++] = wrong == 0;
        size_t program = KIND[kind].program - below(seed, 2), amiss = 1 + below(seed, 2);
        size_t end = length + 2 * program * (type == 2 ? 36 : 1) - (wrong == 1) * amiss + (wrong == 4) * amiss;
        while (length < end)
            message[length++] = (uint8_t)below(seed, 16);
    }
    if (wrong == 2)
        message[below(seed, (uint32_t)length)] = (uint8_t)below(seed, 256);
    if (wrong == 3)
        length = below(seed, (uint32_t)length) + 1;
    message[length++] = 0xF7;
    return length;
}

/* Of another kind now and then, and now and then with the other device byte alone. */
static size_t any_kind_of_sysex(uint8_t *message, uint32_t kind, uint64_t *seed)
{
    uint32_t other = below(seed, 12);
    size_t length = any_sysex(message, other == 0 ? another_kind(kind, seed) : kind, seed);
    if (other == 1)
        message[4] ^= 3;
    return length;
}

static size_t any_identity(uint8_t *message, uint64_t *seed)
{
    static const uint8_t CC[] = {0, 1, 2, 0x7F};
    const uint8_t identity[] = {0xF0, 0x7E, CC[below(seed, 4)], 0x06, 0x01, 0xF7};
    return put(message, identity, sizeof identity);
}

static size_t any_bytes(uint8_t *message, uint64_t *seed)
{
    size_t length = 0, count = 1 + below(seed, 60);
    while (length < count) {
        uint32_t byte = below(seed, 7) ? below(seed, 128) : 0x80 + below(seed, 128);
        message[length++] = (uint8_t)byte;
    }
    return length;
}

static size_t any_controllers(uint8_t *message, uint64_t *seed)
{
    size_t length = 0, count = 2 * below(seed, 60);
    message[length++] = (uint8_t)(0xB0 + below(seed, 2));
    while (length <= count)
        message[length++] = (uint8_t)below(seed, below(seed, 3) ? 76 : 20);
    return length;
}

static size_t any_program_changes(uint8_t *message, uint64_t *seed)
{
    size_t length = 0, count = below(seed, 12);
    message[length++] = (uint8_t)(0xC0 + below(seed, 2));
    while (length <= count)
        message[length++] = (uint8_t)below(seed, below(seed, 4) ? 39 : 128);
    return length;
}

static size_t any_message(uint8_t *message, uint32_t kind, uint64_t *seed)
{
    switch (below(seed, 9)) {
        case 0: return any_identity(message, seed);
        case 1: return any_bytes(message, seed);
        case 2:
        case 3: return any_controllers(message, seed);
        case 4: return any_program_changes(message, seed);
        default: return any_kind_of_sysex(message, kind, seed);
    }
}

static int once_same(box *a, box *b, const uint8_t *message, size_t length, uint32_t kind, uint64_t *seed)
{
    given g = below(seed, 8) ? any_given(kind, seed) : any_amiss(kind, seed);
    return whole_same(a, b, message, length, &g) && panel_same(a, b, &g, kind, seed);
}

/* Most controllers are in a POD's table, and one in eight selects an effect for those behind it. */
static costerbloom_move any_move(uint64_t *seed)
{
    uint32_t controller = below(seed, 8) ? below(seed, below(seed, 4) ? 76 : 256) : 19;
    return (costerbloom_move){(uint8_t)controller, (uint8_t)below(seed, below(seed, 2) ? 20 : 256)};
}

/* A list of so many moves. A number too few is lent now and then, whatever else is amiss. */
static int list_same(box *a, box *b, size_t count, uint32_t kind, uint64_t *seed)
{
    static costerbloom_move moves[LENGTHS];
    for (size_t i = 0; i < count; i++)
        moves[i] = any_move(seed);
    size_t lent = below(seed, 8) || count == 0 ? count + below(seed, 3) : count - 1;
    given g = below(seed, 8) ? any_given(kind, seed) : any_amiss(kind, seed);
    return moves_same(a, b, moves, count, lent, &g);
}

/* Byte by byte. A call that is refused may come before any byte, and loses none; now and then the kind is another from
 * some byte on. */
static int bytes_same(box *a, box *b, const uint8_t *message, size_t length, uint32_t kind, uint64_t *seed)
{
    size_t other_from = below(seed, 16) ? length : below(seed, (uint32_t)length);
    for (size_t i = 0; i < length; i++) {
        if (i == other_from)
            kind = another_kind(kind, seed);
        given amiss = any_amiss(kind, seed), g = any_given(kind, seed);
        if (below(seed, 50) == 0 && !take_same(a, b, message[i], &amiss))
            return 0;
        if (!take_same(a, b, message[i], &g))
            return 0;
    }
    return 1;
}

uint32_t agree(box *library, box *plain, uint32_t calls)
{
    static uint8_t message[COSTERBLOOM_LONGEST + 8];
    uint64_t seed = 0x9E3779B97F4A7C15;
    uint32_t count = 0, lists = 0;
    while (count < calls) {
        uint32_t kind = below(&seed, KINDS);
        size_t length = any_message(message, kind, &seed);
        _Bool wild = below(&seed, 8) == 0;
        mark_both(library, plain, &seed);
        if (wild)
            library->receiver = plain->receiver = any_receiver(&seed);
        if (!once_same(library, plain, message, length, kind, &seed))
            return count;
        if (!list_same(library, plain, lists++ % LENGTHS, kind, &seed))
            return count;
        if (!bytes_same(library, plain, message, length, kind, &seed) || !same_box(library, plain))
            return count;
        count += (uint32_t)length;
        if (wild) /* an unsound one would refuse all that comes */
            library->receiver = plain->receiver = (costerbloom_receiver){0};
    }
    return calls;
}
