/* What makes it fast: half bytes are tested by one OR over all of them and joined in loops that the compiler turns
 * into vector code, every formula is one multiplication, one shift and the greater of two numbers, and a byte's tests
 * stand in the order in which a running box meets them. A call looks at its kind once, and goes on in code of that
 * kind, in which lengths and places are constants. Nothing is skipped: 30 to 34 are tested at every call that
 * has them. */
#include "plain.h"

enum { PROGRAMS = 36, REFUSAL = 65536 };

/* Numbers the box returns. */
enum {
    TAKEN = 0,
    STORED = 1,
    REPLIED = 2,
    APPLIED = 3,
    CUT = 4,
    TOO_LONG = 10,
    NOT_OURS = 11,
    UNKNOWN = 12,
    WRONG_LENGTH = 13,
    NO_PROGRAM = 14,
    WRONG_VERSION = 15,
    ABOVE_0F = 16,
    NO_CONTROLLER = 17,
    OUT_OF_RANGE = 18,
    NOT_SELECTED = 19,
    OTHER_CHANNEL = 20,
    OTHER_MESSAGE = 21,
    OTHER_IDENTITY = 22,
    TOO_SHORT = 30,
    NO_PLAYER = 31,
    NOT_SOUND = 32,
    TOO_MANY = 33,
    FEW_NUMBERS = 34,
    NO_VALUE = 40
};

typedef struct {
    uint8_t channel, omni, revision[4];
} settings;

/* All bits of the four revision bytes are looked at together. */
static inline int are_valid(uint8_t channel, uint8_t omni, uint8_t revision_bits)
{
    return channel <= 15 && omni <= 1 && revision_bits <= 0x7F;
}

/* Whether each of the 38 is 0 or 1: eight at a time, and the last eight by themselves, since 38 is no multiple. */
static inline int are_marks(const uint8_t *marks)
{
    uint64_t bits, eight;
    __builtin_memcpy(&bits, marks + COSTERBLOOM_MARKS - 8, 8);
    for (size_t i = 0; i + 8 <= COSTERBLOOM_MARKS; i += 8) {
        __builtin_memcpy(&eight, marks + i, 8);
        bits |= eight;
    }
    return (bits & 0xFEFEFEFEFEFEFEFE) == 0;
}

/* ---- half bytes */

/* All bits that any of the bytes has: one pass without a way out, which the compiler can do 16 bytes at a time. */
static inline uint8_t bits_of(const uint8_t *bytes, size_t count)
{
    uint8_t bits = 0;
    for (size_t i = 0; i < count; i++)
        bits |= bytes[i];
    return bits;
}

/* Two half bytes are read as one number of the processor, lowest first: byte by byte the loop is four times as slow. */
static inline void join(uint8_t *restrict bytes, const uint8_t *restrict halves, size_t count)
{
    for (size_t i = 0; i < count; i++) {
        uint16_t pair;
        __builtin_memcpy(&pair, halves + 2 * i, 2);
        bytes[i] = (uint8_t)(pair << 4 | pair >> 8);
    }
}

static inline void split(uint8_t *restrict halves, const uint8_t *restrict bytes, size_t count)
{
    for (size_t i = 0; i < count; i++) {
        halves[2 * i] = bytes[i] >> 4;
        halves[2 * i + 1] = bytes[i] & 0x0F;
    }
}

/* ---- controllers */

/* The number for v is (v x factor + addend) / 65536, exact for v up to 127, and raised to at least `least` (Req 01);
 * where that is not 0 the formula rises from 0. Effects are bits, and bit 0 is always selected. The upper and lower
 * seven bits of m, which need the stored number, are told by a factor of 0. */
typedef struct {
    int factor, addend;
    uint8_t place, width, highest, effects, least;
} row;

enum { ALWAYS = 1, SWELL = 2, COMPRESSOR = 4, CHORUS = 8, ROTARY = 16, TREMOLO = 32 };
enum { AMP = 12, UPPER = 30, LOWER = 62 };

#define V_64(b)                                                                                                        \
    {                                                                                                                  \
        1024, 0, b, 1, 127, ALWAYS, 0                                                                                  \
    }
#define V_2(b)                                                                                                         \
    {                                                                                                                  \
        32768, 0, b, 1, 127, ALWAYS, 0                                                                                 \
    }
#define V(b, top)                                                                                                      \
    {                                                                                                                  \
        65536, 0, b, 1, top, ALWAYS, 0                                                                                 \
    }
#define M                                                                                                              \
    {                                                                                                                  \
        0, 0, 26, 3, 127, ALWAYS, 0                                                                                    \
    }

/* The rows that a POD and a POD Pro have alike: all but that of 12, the amp model, and a POD Pro's of 9. */
#define ROWS_ALIKE                                                                                                     \
    [25] = V_64(0), [26] = V_64(1), [27] = V_64(2), [28] = V_64(3), [50] = V_64(4), [36] = V_64(5), [22] = V_64(6),    \
    [73] = V_64(7), [47] = V_64(24), [37] = V_64(38),                                                                  \
    [13] = V_2(9), [20] = V_2(10), [14] = V_2(11), [15] = V_2(12), [16] = V_2(13), [21] = V_2(14), [17] = V_2(15),     \
    [24] = V_2(17), [32] = V_2(34), [34] = V_2(36), [38] = V_2(39), [39] = V_2(40), [40] = V_2(41), [41] = V_2(42),    \
    [18] = V_2(43), [72] = V_2(45), [1] = V_2(47),                                                                     \
    [4] = V(18, 127), [44] = V(19, 127), [45] = V(20, 127), [7] = V(22, 127), [46] = V(23, 127),                       \
    [71] = V(44, 15), [19] = V(46, 15),                                                                                \
    [23] = {-194 * 256, 127 * 194 * 256, 16, 1, 127, ALWAYS, 0},                                                       \
    [UPPER] = M, [LOWER] = M,                                                                                          \
    [49] = {32768, 0, 48, 1, 127, SWELL, 0},                                                                           \
    [42] = {2979, 0, 48, 1, 127, COMPRESSOR, 0},                                                                       \
    [51] = {50 * 65536, 0, 48, 2, 127, CHORUS, 200},                                                                   \
    [52] = {161320, 0, 50, 2, 127, CHORUS, 0},                                                                         \
    [53] = {65536, 0, 52, 1, 127, CHORUS, 0},                                                                          \
    [54] = {399458, 0, 53, 2, 127, CHORUS, 1},                                                                         \
    [55] = {1024, 0, 48, 1, 127, ROTARY, 0},                                                                           \
    [56] = {22 * 65536, 100 * 65536, 49, 2, 127, ROTARY, 0},                                                           \
    [57] = {22 * 65536, 100 * 65536, 51, 2, 127, ROTARY, 0},                                                           \
    [58] = {25 * 65536, 0, 48, 2, 127, TREMOLO, 150},                                                                  \
    [59] = {65536, 0, 50, 1, 127, TREMOLO, 0}

static const row POD_ROWS[128] = {ROWS_ALIKE, [AMP] = V(8, 27)};
static const row POD_PRO_ROWS[128] = {ROWS_ALIKE, [AMP] = V(8, 31), [9] = V_2(35)};

static const row BASS_POD_ROWS[128] = {
    [AMP] = V(3, 15),
    [19] = V(49, 15),
    [64] = V_64(2),
    [13] = V_2(4),
    [14] = V_2(6),
    [15] = V_2(7),
    [16] = V_2(8),
    [17] = V_2(10),
    [18] = V_2(11),
    [1] = V_2(50),
};

/* All that hangs on a kind. A function over a unit is inlined (IN_KIND) where the unit is known, but for what is done
 * with a finished SysEx, which is long beside the reading of a unit. */
typedef struct {
    size_t program, spare; /* bytes of one, and how many of them a short dump lacks */
    uint8_t header[5], identity[4];
    const row *rows;
    int changes; /* whether a program change is taken */
} unit;

#define IN_KIND static inline __attribute__((always_inline))

static const unit POD = {COSTERBLOOM_POD_PROGRAM, 1, {0xF0, 0x00, 0x01, 0x0C, 0x01}, {0, 0, 0, 1}, POD_ROWS, 0};
static const unit POD_PRO = {
    COSTERBLOOM_POD_PRO_PROGRAM, 1, {0xF0, 0x00, 0x01, 0x0C, 0x01}, {0, 0, 0, 4}, POD_PRO_ROWS, 0};
static const unit BASS_POD = {
    COSTERBLOOM_BASS_POD_PROGRAM, 0, {0xF0, 0x00, 0x01, 0x0C, 0x02}, {2, 0, 0, 0}, BASS_POD_ROWS, 1};

IN_KIND size_t edit_of(const unit *u, uint32_t player)
{
    return COSTERBLOOM_EDIT_OF(u->program, player);
}

IN_KIND size_t limit_of(const unit *u)
{
    return COSTERBLOOM_LONGEST_OF(u->program) - 1;
}

IN_KIND int is_short(
    const unit *u, size_t memory_length, size_t marks_length, size_t receive_length, size_t reply_length)
{
    return memory_length < COSTERBLOOM_MEMORY_OF(u->program) || marks_length < COSTERBLOOM_MARKS ||
           receive_length < COSTERBLOOM_LONGEST_OF(u->program) || reply_length < COSTERBLOOM_LONGEST_OF(u->program);
}

/* What each value of byte 46 selects. */
static const uint8_t SELECTED[16] = {CHORUS, CHORUS, ROTARY, CHORUS, CHORUS, TREMOLO, 0, COMPRESSOR, CHORUS, TREMOLO, 0,
    COMPRESSOR, CHORUS, CHORUS, SWELL, CHORUS};

static inline int is_selected(const row *r, const uint8_t *edit)
{
    return (r->effects & ALWAYS) || (edit[46] <= 15 && (r->effects & SELECTED[edit[46]]));
}

static inline uint32_t number_of(const row *r, uint32_t value)
{
    uint32_t number = (uint32_t)((int)value * r->factor + r->addend) >> 16;
    return number > r->least ? number : r->least;
}

static inline uint32_t load(const uint8_t *bytes, uint32_t width)
{
    uint32_t number = bytes[0];
    if (width > 1)
        number |= (uint32_t)bytes[1] << 8;
    if (width > 2)
        number |= (uint32_t)bytes[2] << 16;
    return number;
}

static inline uint32_t m_of(uint32_t stored)
{
    uint32_t m = stored / 6;
    return m < 16383 ? m : 16383;
}

static void store_m(uint8_t *bytes, uint32_t controller, uint32_t value)
{
    uint32_t m = m_of(load(bytes, 3));
    uint32_t number = 6 * (controller == UPPER ? value << 7 | (m & 0x7F) : (m & ~0x7Fu) | value);
    bytes[0] = (uint8_t)number;
    bytes[1] = (uint8_t)(number >> 8);
    bytes[2] = (uint8_t)(number >> 16);
}

IN_KIND uint32_t apply(const unit *u, uint32_t controller, uint32_t value, uint8_t *edit)
{
    const row *r = &u->rows[controller];
    if (!r->width)
        return NO_CONTROLLER;
    if (value > r->highest)
        return OUT_OF_RANGE;
    if (!is_selected(r, edit))
        return NOT_SELECTED;
    uint8_t *bytes = edit + r->place;
    if (!r->factor) {
        store_m(bytes, controller, value);
        return APPLIED;
    }
    uint32_t number = number_of(r, value);
    bytes[0] = (uint8_t)number;
    if (r->width == 2)
        bytes[1] = (uint8_t)(number >> 8);
    return APPLIED;
}

/* All of a list's tests are done but for 30, 31 and the settings, whose outcome is handed on. */
IN_KIND uint64_t apply_all(const unit *u, const costerbloom_move *restrict moves, size_t count, uint32_t player,
    int valid, uint8_t *restrict memory, size_t memory_length, uint8_t *restrict numbers)
{
    if (memory_length < COSTERBLOOM_MEMORY_OF(u->program))
        return TOO_SHORT;
    if (player > COSTERBLOOM_PLAYER_TWO)
        return NO_PLAYER;
    if (!valid)
        return NOT_SOUND;
    uint8_t *edit = memory + edit_of(u, player);
    for (size_t i = 0; i < count; i++) {
        uint32_t controller = moves[i].controller;
        numbers[i] = (uint8_t)(controller > 127 ? NO_CONTROLLER : apply(u, controller, moves[i].value, edit));
    }
    return TAKEN;
}

uint64_t plain_moves(const costerbloom_move *moves, size_t count, uint32_t player, uint32_t kind, uint8_t channel,
    uint8_t omni, uint8_t revision0, uint8_t revision1, uint8_t revision2, uint8_t revision3, uint8_t *memory,
    size_t memory_length, uint8_t *numbers, size_t numbers_length)
{
    if (count > COSTERBLOOM_MOST_MOVES)
        return TOO_MANY;
    if (numbers_length < count)
        return FEW_NUMBERS;
    int valid = are_valid(channel, omni, revision0 | revision1 | revision2 | revision3);
    switch (kind) {
        case COSTERBLOOM_POD: return apply_all(&POD, moves, count, player, valid, memory, memory_length, numbers);
        case COSTERBLOOM_BASS_POD:
            return apply_all(&BASS_POD, moves, count, player, valid, memory, memory_length, numbers);
        case COSTERBLOOM_POD_PRO:
            return apply_all(&POD_PRO, moves, count, player, valid, memory, memory_length, numbers);
        default: return NOT_SOUND;
    }
}

IN_KIND uint32_t scale(const unit *u, uint32_t controller, uint32_t value)
{
    if (controller > 127 || !u->rows[controller].factor)
        return REFUSAL + NO_CONTROLLER;
    if (value > u->rows[controller].highest)
        return REFUSAL + OUT_OF_RANGE;
    return number_of(&u->rows[controller], value);
}

uint32_t plain_scale(uint32_t controller, uint32_t value, uint32_t kind)
{
    switch (kind) {
        case COSTERBLOOM_POD: return scale(&POD, controller, value);
        case COSTERBLOOM_BASS_POD: return scale(&BASS_POD, controller, value);
        case COSTERBLOOM_POD_PRO: return scale(&POD_PRO, controller, value);
        default: return REFUSAL + NOT_SOUND;
    }
}

static inline uint32_t back_m(uint32_t controller, uint32_t stored)
{
    uint32_t m = m_of(stored);
    if (stored != 6 * m)
        return REFUSAL + NO_VALUE;
    return controller == UPPER ? m >> 7 : m & 0x7F;
}

/* The smallest value whose number has come up to the stored one, or down to it where the formula falls: no smaller one
 * gives it, so this one does or none does. One that rises has come up to the least number at 0. */
static inline uint32_t back_row(const row *r, uint32_t stored)
{
    long long way = ((long long)stored << 16) - r->addend, step = r->factor;
    if (step < 0) {
        way = -way - 65535;
        step = -step;
    }
    long long value = way <= (long long)r->least << 16 ? 0 : (way + step - 1) / step;
    if (value > r->highest || number_of(r, (uint32_t)value) != stored)
        return REFUSAL + NO_VALUE;
    return (uint32_t)value;
}

IN_KIND uint32_t back(
    const unit *u, uint32_t controller, uint32_t player, const uint8_t *memory, size_t memory_length)
{
    if (memory_length < COSTERBLOOM_MEMORY_OF(u->program))
        return REFUSAL + TOO_SHORT;
    if (player > COSTERBLOOM_PLAYER_TWO)
        return REFUSAL + NO_PLAYER;
    if (controller > 127 || !u->rows[controller].width)
        return REFUSAL + NO_CONTROLLER;
    const row *r = &u->rows[controller];
    const uint8_t *edit = memory + edit_of(u, player);
    if (!is_selected(r, edit))
        return REFUSAL + NOT_SELECTED;
    uint32_t stored = load(edit + r->place, r->width);
    return r->factor ? back_row(r, stored) : back_m(controller, stored);
}

uint32_t plain_back(
    uint32_t controller, uint32_t player, uint32_t kind, const uint8_t *memory, size_t memory_length)
{
    switch (kind) {
        case COSTERBLOOM_POD: return back(&POD, controller, player, memory, memory_length);
        case COSTERBLOOM_BASS_POD: return back(&BASS_POD, controller, player, memory, memory_length);
        case COSTERBLOOM_POD_PRO: return back(&POD_PRO, controller, player, memory, memory_length);
        default: return REFUSAL + NOT_SOUND;
    }
}

/* The amp models that a kind knows are those that its controller 12 takes. */
IN_KIND uint32_t knows(const unit *u, uint32_t model)
{
    return model <= u->rows[AMP].highest;
}

uint32_t plain_amp(uint32_t model, uint32_t kind)
{
    switch (kind) {
        case COSTERBLOOM_POD: return knows(&POD, model);
        case COSTERBLOOM_BASS_POD: return knows(&BASS_POD, model);
        case COSTERBLOOM_POD_PRO: return knows(&POD_PRO, model);
        default: return REFUSAL + NOT_SOUND;
    }
}

IN_KIND uint64_t screen(const unit *u, costerbloom_part *part, uint32_t program, uint32_t own, uint32_t player,
    const uint8_t *programs, size_t programs_length, const uint8_t *buffer, size_t buffer_length)
{
    if (programs_length < PROGRAMS * u->program || buffer_length < u->program)
        return TOO_SHORT;
    if (player > COSTERBLOOM_PLAYER_TWO)
        return NO_PLAYER;
    if (!own && program >= PROGRAMS)
        return NO_PROGRAM;
    *part = (costerbloom_part){own ? buffer : programs + program * u->program, u->program};
    return TAKEN;
}

/* A refusal leaves the part that is written first. */
uint64_t plain_screen(costerbloom_part *part, uint32_t program, uint32_t own, uint32_t player, uint32_t kind,
    const uint8_t *programs, size_t programs_length, const uint8_t *buffer, size_t buffer_length)
{
    *part = (costerbloom_part){programs, 0};
    switch (kind) {
        case COSTERBLOOM_POD:
            return screen(&POD, part, program, own, player, programs, programs_length, buffer, buffer_length);
        case COSTERBLOOM_BASS_POD:
            return screen(&BASS_POD, part, program, own, player, programs, programs_length, buffer, buffer_length);
        case COSTERBLOOM_POD_PRO:
            return screen(&POD_PRO, part, program, own, player, programs, programs_length, buffer, buffer_length);
        default: return NOT_SOUND;
    }
}

/* ---- finished messages */

enum { REQUEST = 0, DUMP = 1, ONE = 0, EDITED = 1, ALL = 2 };

static inline uint64_t replied(size_t length)
{
    return REPLIED | (uint64_t)length << 8;
}

static uint64_t identify(const unit *u, const settings *s, uint8_t cc, uint8_t *restrict reply)
{
    static const uint8_t IDENTITY[17] = {0xF0, 0x7E, 0, 6, 2, 0, 1, 0x0C, 0, 0, 0, 0, 0, 0, 0, 0, 0xF7};
    if (cc != s->channel && cc != 0x7F && !s->omni)
        return OTHER_IDENTITY;
    __builtin_memcpy(reply, IDENTITY, sizeof IDENTITY);
    reply[2] = cc;
    __builtin_memcpy(reply + 8, u->identity, sizeof u->identity);
    __builtin_memcpy(reply + 12, s->revision, sizeof s->revision);
    return replied(sizeof IDENTITY);
}

/* What a message names: a program, its sender's edit buffer or all programs, and their marks. */
typedef struct {
    uint8_t *bytes, *marks;
    size_t programs;
} part;

static inline part part_of(
    const unit *u, uint8_t type, uint8_t program, uint32_t player, uint8_t *memory, uint8_t *marks)
{
    size_t first = type == ONE ? program : type == EDITED ? PROGRAMS + player : 0;
    return (part){memory + first * u->program, marks + first, type == ALL ? PROGRAMS : 1};
}

/* How many bytes of a program a dump of this part has: the spare one only where all its marks are set. */
static inline size_t sent_of(const unit *u, const part *p)
{
    uint8_t all = 1;
    for (size_t i = 0; i < p->programs; i++)
        all &= p->marks[i];
    return all ? u->program : u->program - u->spare;
}

/* The dump begins as its request does, but for the opcode: of the eight bytes that every request has, the last is the
 * program, or is written over. */
static uint64_t answer(const unit *u, const uint8_t *request, size_t head, const part *p, uint8_t *restrict reply)
{
    size_t at = head, sent = sent_of(u, p);
    __builtin_memcpy(reply, request, 8);
    reply[5] = DUMP;
    reply[at++] = 0;
    if (sent == u->program)
        split(reply + at, p->bytes, p->programs * sent);
    else
        for (size_t i = 0; i < p->programs; i++)
            split(reply + at + 2 * i * sent, p->bytes + i * u->program, sent);
    at += 2 * p->programs * sent;
    reply[at++] = 0xF7;
    return replied(at);
}

/* Of each program so many bytes have come: all, or all but the spare one. */
static uint64_t store(const unit *u, const uint8_t *restrict fields, size_t sent, const part *p)
{
    const uint8_t *halves = fields + 1;
    if (fields[0] != 0)
        return WRONG_VERSION;
    if (bits_of(halves, 2 * p->programs * sent) > 0x0F)
        return ABOVE_0F;
    if (sent == u->program)
        join(p->bytes, halves, p->programs * sent);
    else
        for (size_t i = 0; i < p->programs; i++) {
            join(p->bytes + i * u->program, halves + 2 * i * sent, sent);
            p->bytes[i * u->program + sent] = 0;
        }
    if (u->spare)
        __builtin_memset(p->marks, sent == u->program, p->programs);
    return STORED;
}

static inline int is_identity(const uint8_t *body, size_t length)
{
    return length == 5 && body[0] == 0xF0 && body[1] == 0x7E && body[2] <= 0x7F && body[3] == 6 && body[4] == 1;
}

/* A body: F0 and the bytes after it, without F7. Nothing is assumed of its bytes. */
static uint64_t sysex(const unit *u, const settings *s, const uint8_t *body, size_t length, uint32_t player,
    uint8_t *memory, uint8_t *marks, uint8_t *reply)
{
    if (is_identity(body, length))
        return identify(u, s, body[2], reply);
    if (length < sizeof u->header || __builtin_memcmp(body, u->header, sizeof u->header) != 0)
        return NOT_OURS;
    if (length < 7 || body[5] > DUMP || body[6] > ALL)
        return UNKNOWN;
    uint8_t opcode = body[5], type = body[6];
    size_t head = type == ONE ? 8 : 7, programs = type == ALL ? PROGRAMS : 1;
    size_t longer = head + 1 + 2 * programs * u->program, shorter = longer - 2 * programs * u->spare;
    if (opcode == REQUEST ? length != head : length != longer && length != shorter)
        return WRONG_LENGTH;
    if (type == ONE && body[7] >= PROGRAMS)
        return NO_PROGRAM;
    const part p = part_of(u, type, body[7], player, memory, marks);
    if (opcode == REQUEST)
        return answer(u, body, head, &p, reply);
    return store(u, body + head, length == longer ? u->program : u->program - u->spare, &p);
}

/* The arguments of a byte call, kept apart: they are put together as settings for a finished SysEx alone. */
typedef struct {
    uint32_t player; /* whose socket it came on */
    uint8_t byte, channel, omni, revision0, revision1, revision2, revision3;
    uint8_t *memory, *marks, *receive, *reply;
    size_t memory_length, marks_length, receive_length, reply_length;
} call;

/* Programs are counted from 1 here: 0 is manual, 37 the tuner. */
IN_KIND uint64_t change_program(const unit *u, uint8_t program, uint32_t player, uint8_t *memory)
{
    if (!u->changes || program < 1 || program > PROGRAMS)
        return OTHER_MESSAGE;
    __builtin_memcpy(memory + edit_of(u, player), memory + (program - 1) * u->program, u->program);
    return STORED;
}

IN_KIND uint64_t channel_message(const unit *u, const call *c, uint8_t status, uint8_t first, uint8_t second)
{
    if ((status & 0x0F) != c->channel && !c->omni)
        return OTHER_CHANNEL;
    if (status >> 4 == 0xB)
        return apply(u, first, second, c->memory + edit_of(u, c->player));
    return status >> 4 == 0xC ? change_program(u, first, c->player, c->memory) : OTHER_MESSAGE;
}

/* ---- from bytes to finished messages */

static inline int takes_two(uint8_t status)
{
    return status >= 0x80 && status <= 0xEF && (status & 0xE0) != 0xC0;
}

IN_KIND int is_sound_inside(const unit *u, const costerbloom_receiver *r)
{
    if (r->inside != 1 || (r->running | r->held | r->waiting) || r->stored < 1 || r->stored > limit_of(u))
        return 0;
    return r->over == 0 || (r->over == 1 && r->stored == limit_of(u));
}

static inline int is_sound_outside(const costerbloom_receiver *r)
{
    if (r->stored | r->over)
        return 0;
    if (r->held)
        return r->held == 1 && r->waiting <= 0x7F && takes_two(r->running);
    return r->waiting == 0 && (r->running == 0 || (r->running >= 0x80 && r->running <= 0xEF));
}

static inline void clear(costerbloom_receiver *r, uint8_t running)
{
    *r = (costerbloom_receiver){.running = running};
}

/* A status byte below F8 outside a SysEx, or one that has just cut it. */
static inline void status_byte(costerbloom_receiver *r, uint8_t byte, uint8_t *receive)
{
    clear(r, byte < 0xF0 ? byte : 0);
    if (byte == 0xF0) {
        receive[0] = byte;
        r->stored = 1;
        r->inside = 1;
    }
}

IN_KIND uint64_t take_inside(const unit *u, costerbloom_receiver *r, const call *c)
{
    if (c->byte < 0x80) {
        if (r->stored < limit_of(u))
            c->receive[r->stored++] = c->byte;
        else
            r->over = 1;
        return TAKEN;
    }
    if (c->byte >= 0xF8)
        return TAKEN;
    if (c->byte != 0xF7) {
        status_byte(r, c->byte, c->receive);
        return CUT;
    }
    uint8_t over = r->over;
    size_t length = r->stored;
    clear(r, 0);
    if (over)
        return TOO_LONG;
    const settings s = {c->channel, c->omni, {c->revision0, c->revision1, c->revision2, c->revision3}};
    return sysex(u, &s, c->receive, length, c->player, c->memory, c->marks, c->reply);
}

IN_KIND uint64_t take_outside(const unit *u, costerbloom_receiver *r, const call *c)
{
    if (c->byte >= 0x80) {
        if (c->byte < 0xF8)
            status_byte(r, c->byte, c->receive);
        return TAKEN;
    }
    uint8_t status = r->running;
    if (!status)
        return TAKEN;
    if (!takes_two(status))
        return channel_message(u, c, status, c->byte, 0);
    if (!r->held) {
        r->held = 1;
        r->waiting = c->byte;
        return TAKEN;
    }
    uint8_t first = r->waiting;
    r->held = 0;
    r->waiting = 0;
    return channel_message(u, c, status, first, c->byte);
}

IN_KIND uint64_t take(const unit *u, costerbloom_receiver *r, const call *c)
{
    if (is_short(u, c->memory_length, c->marks_length, c->receive_length, c->reply_length))
        return TOO_SHORT;
    if (c->player > COSTERBLOOM_PLAYER_TWO)
        return NO_PLAYER;
    if (!are_valid(c->channel, c->omni, c->revision0 | c->revision1 | c->revision2 | c->revision3) ||
        !are_marks(c->marks))
        return NOT_SOUND;
    if (r->inside)
        return is_sound_inside(u, r) ? take_inside(u, r, c) : NOT_SOUND;
    return is_sound_outside(r) ? take_outside(u, r, c) : NOT_SOUND;
}

uint64_t plain_take(costerbloom_receiver *receiver, uint32_t socket, uint8_t byte, uint32_t kind, uint8_t channel,
    uint8_t omni, uint8_t revision0, uint8_t revision1, uint8_t revision2, uint8_t revision3, uint8_t *memory,
    size_t memory_length, uint8_t *marks, size_t marks_length, uint8_t *receive, size_t receive_length, uint8_t *reply,
    size_t reply_length)
{
    const call c = {socket, byte, channel, omni, revision0, revision1, revision2, revision3, memory, marks, receive,
        reply, memory_length, marks_length, receive_length, reply_length};
    switch (kind) {
        case COSTERBLOOM_POD: return take(&POD, receiver, &c);
        case COSTERBLOOM_BASS_POD: return take(&BASS_POD, receiver, &c);
        case COSTERBLOOM_POD_PRO: return take(&POD_PRO, receiver, &c);
        default: return NOT_SOUND;
    }
}

static inline int is_framed(const uint8_t *message, size_t length)
{
    return length >= 2 && message[0] == 0xF0 && message[length - 1] == 0xF7 && bits_of(message + 1, length - 2) <= 0x7F;
}

uint64_t plain_whole(const uint8_t *message, size_t message_length, uint32_t player, uint32_t kind, uint8_t channel,
    uint8_t omni, uint8_t revision0, uint8_t revision1, uint8_t revision2, uint8_t revision3, uint8_t *memory,
    size_t memory_length, uint8_t *marks, size_t marks_length, uint8_t *reply, size_t reply_length)
{
    static const unit *const UNITS[] = {&POD, &BASS_POD, &POD_PRO};
    const settings s = {channel, omni, {revision0, revision1, revision2, revision3}};
    if (kind > COSTERBLOOM_POD_PRO)
        return NOT_SOUND;
    const unit *u = UNITS[kind];
    if (is_short(u, memory_length, marks_length, reply_length, reply_length))
        return TOO_SHORT;
    if (player > COSTERBLOOM_PLAYER_TWO)
        return NO_PLAYER;
    if (!are_valid(channel, omni, revision0 | revision1 | revision2 | revision3) || !are_marks(marks))
        return NOT_SOUND;
    if (message_length > COSTERBLOOM_LONGEST_OF(u->program))
        return TOO_LONG;
    if (!is_framed(message, message_length))
        return NOT_OURS;
    return sysex(u, &s, message, message_length - 1, player, memory, marks, reply);
}
