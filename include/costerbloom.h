/* Costerbloom: the proved heart of a small MIDI box, for firmware.
 *
 * A box is set as one kind of unit before use, POD, Bass POD or POD Pro, and every call brings that kind. A POD Pro is
 * a POD but for three things, and what is said of a POD below holds of both:
 *
 *                                        POD           POD Pro              Bass POD
 *   identity                             00 00 00 01   00 00 00 04          02 00 00 00
 *   controller 12, amp model             up to 27      up to 31             up to 15
 *   controller 9, digital output gain    none (17)     to byte 35, by v/2   none (17)
 *
 * Programs of a POD and of a POD Pro stand at the same places: either may read the other's memory, marks and receivers,
 * and store its dumps. Those of a Bass POD stand at others: a box that is set as one, or was one before, begins with
 * fresh memory, marks and receivers.
 *
 * Two players share the 36 programs, and each has an edit buffer: player one plays on socket 0, player two on socket 1.
 * Controllers, program changes, edit buffer dumps and edit buffer requests act on the edit buffer, and the mark, of
 * the player whose socket they came on, and leave the other's as they are: a player notices nothing of the other but
 * the programs that the other's dumps store. A call with no socket names its player.
 *
 * The caller owns every buffer; no call keeps a pointer, allocates, or waits. Lent at least:
 *
 *                                                 POD, POD Pro   Bass POD   any kind
 *   memory: 36 programs, player one's edit
 *           buffer, player two's                         2,736      3,040      3,040
 *   marks: one for each of these                            38         38         38
 *   a receive buffer for each socket                     5,193      5,769      5,769
 *   a reply buffer                                       5,193      5,769      5,769
 *   a number buffer for a list of moves           a byte for each move
 *
 * A program has 72 bytes on a POD and 80 on a Bass POD, and so has an edit buffer. More may be lent; the rest is not
 * touched. What a call is lent must not overlap, but for what the screen reads; no other call may use it meanwhile, and
 * no pointer may be null, not even with a length of 0. A call takes less than 2 KB of stack.
 *
 * Marks: the last of a POD program's 72 bytes is a spare, which some units do not send. One mark for each program, in
 * number order, then player one's edit buffer's, then player two's, says whether it was received: 1 if it was, 0 if
 * not. A POD takes dumps of both lengths: of a program 154 bytes or 152, of an edit buffer 153 or 151, of all programs
 * 5,193 or 5,121. A long one sets the mark of all that it brings; a short one makes the spare byte 0 and clears the
 * mark; nothing else changes a mark. A program, or an edit buffer, is sent in the length that its mark says. All
 * programs are sent long where the marks of all 36 are set, else short, each of them, and spare bytes that were
 * received stay in memory. A Bass POD has one length: its marks are tested as a POD's are, and else neither read nor
 * written.
 *
 * Fresh memory is all zero, and so is a fresh receiver; but fresh marks are 1, all of them, so set them before the
 * first byte.
 *
 * Settings, the same for every kind: channel 0 to 15, omni 0 or 1, four revision bytes of at most 0x7F.
 */
#ifndef COSTERBLOOM_H
#define COSTERBLOOM_H

#include <stddef.h>
#include <stdint.h>

#ifdef __cplusplus
extern "C" {
#endif

/* The kinds. Any other number is refused with 32, before all else is tested but the length of a list (33, 34). */
enum { COSTERBLOOM_POD = 0, COSTERBLOOM_BASS_POD = 1, COSTERBLOOM_POD_PRO = 2 };

/* The players, numbered as their sockets. Any other number is refused with 31, even if no edit buffer is touched. */
enum { COSTERBLOOM_PLAYER_ONE = 0, COSTERBLOOM_PLAYER_TWO = 1 };

/* The lengths to lend follow from a program's size: 36 programs and two edit buffers; the dump of all programs, two
 * half bytes for each of their bytes and 9 bytes around them. A player's edit buffer begins at this place of memory;
 * player one's is the length of the 36 programs too. */
#define COSTERBLOOM_EDIT_OF(program, player) ((36 + (player)) * (program))
#define COSTERBLOOM_MEMORY_OF(program) (38 * (program))
#define COSTERBLOOM_LONGEST_OF(program) (2 * 36 * (program) + 9)

enum {
    COSTERBLOOM_POD_PROGRAM = 72,
    COSTERBLOOM_POD_MEMORY = COSTERBLOOM_MEMORY_OF(COSTERBLOOM_POD_PROGRAM),
    COSTERBLOOM_POD_LONGEST = COSTERBLOOM_LONGEST_OF(COSTERBLOOM_POD_PROGRAM),

    COSTERBLOOM_BASS_POD_PROGRAM = 80,
    COSTERBLOOM_BASS_POD_MEMORY = COSTERBLOOM_MEMORY_OF(COSTERBLOOM_BASS_POD_PROGRAM),
    COSTERBLOOM_BASS_POD_LONGEST = COSTERBLOOM_LONGEST_OF(COSTERBLOOM_BASS_POD_PROGRAM),

    COSTERBLOOM_POD_PRO_PROGRAM = 72,
    COSTERBLOOM_POD_PRO_MEMORY = COSTERBLOOM_MEMORY_OF(COSTERBLOOM_POD_PRO_PROGRAM),
    COSTERBLOOM_POD_PRO_LONGEST = COSTERBLOOM_LONGEST_OF(COSTERBLOOM_POD_PRO_PROGRAM),

    /* the largest, for a box that may be set as any kind */
    COSTERBLOOM_MEMORY = COSTERBLOOM_BASS_POD_MEMORY,
    COSTERBLOOM_LONGEST = COSTERBLOOM_BASS_POD_LONGEST,

    /* the same for every kind */
    COSTERBLOOM_MARKS = 38
};

/* What a socket keeps between its bytes: one for each socket, lent to each of its calls. All zero is fresh. Its last
 * byte, the eighth, is padding, and may hold anything. */
typedef struct {
    uint16_t stored;
    uint8_t inside, over, running, held, waiting;
} costerbloom_receiver;

/* A knob's move, and how many of them one list may have. Either number of a move may be anything up to 255. */
typedef struct {
    uint8_t controller, value;
} costerbloom_move;

enum { COSTERBLOOM_MOST_MOVES = 256 };

/* What the screen is handed: so many bytes from a place of what it has lent. */
typedef struct {
    const uint8_t *bytes;
    size_t length;
} costerbloom_part;

/* One byte that came on socket 0 or 1. Gives a number in bits 0 to 7, the reply length in bits 8 to 23:
 *
 *    0  byte taken                                17  controller not in the kind's table
 *    1  dump stored; on a Bass POD also a         18  controller value out of range
 *       program change of 1 to 36: program 0      19  its effect is not selected (never on a Bass POD)
 *       to 35 is now in the edit buffer           20  channel message on another channel, not omni
 *    2  reply written                             21  channel message other than a controller, or, on a
 *    3  controller applied                            Bass POD, than a program change of 1 to 36
 *    4  SysEx cut                                 22  identity request for another channel, not omni
 *   10  SysEx too long                            30  a lent buffer too short
 *   11  not ours: on a POD also a Bass POD's,     31  socket not 0 or 1 (tested after 30)
 *       on a Bass POD also a POD's                32  a kind that is none (tested before 30); receiver
 *   12  opcode or type unknown or missing             not sound, a setting out of range, or a mark
 *   13  wrong length; on a POD a dump's is            of the 38 neither 0 nor 1 (tested after 31)
 *       neither the long nor the short one
 *   14  program above 0x23
 *   15  version not 0
 *   16  a data byte above 0x0F
 *
 * 30 to 32 are tested at every byte, before all else. 10, 13 and 30 go by the kind's own lengths, and so does 32: a
 * sound receiver has at most 5,192 bytes stored on a POD, 5,768 on a Bass POD. After 2, send the first `reply length`
 * bytes of the reply buffer; after any other number the length is 0. Only 1 changes marks, and only that of a dump.
 * From 10 on no byte of memory, no mark and no byte of the reply buffer has changed; from 30 on nothing at all has, the
 * receiver neither. */
uint64_t costerbloom_take(costerbloom_receiver *receiver, uint32_t socket, uint8_t byte, uint32_t kind,
    uint8_t channel, uint8_t omni, uint8_t revision0, uint8_t revision1, uint8_t revision2, uint8_t revision3,
    uint8_t *memory, size_t memory_length, uint8_t *marks, size_t marks_length,
    uint8_t *receive, size_t receive_length, uint8_t *reply, size_t reply_length);

/* A whole message from a player's panel, F0 to F7, with no socket and no receiver. Gives the same numbers at the same
 * places, tested in the same order: 1, 2, 10 to 16, 22, 30, 31 for a player not 0 or 1, or 32. */
uint64_t costerbloom_whole(const uint8_t *message, size_t message_length, uint32_t player, uint32_t kind,
    uint8_t channel, uint8_t omni, uint8_t revision0, uint8_t revision1, uint8_t revision2, uint8_t revision3,
    uint8_t *memory, size_t memory_length, uint8_t *marks, size_t marks_length,
    uint8_t *reply, size_t reply_length);

/* A player's list of moves, a scene of a lighting desk, in one call with no socket and no receiver. The moves are made
 * one after the other, each as the message B0 + channel, controller, value on the player's socket. So a move sees what
 * those before it have stored (on a POD a move of controller 19 selects the effect for those behind it), and one that
 * is refused changes nothing and does not stop the list. `numbers` has a byte for each move; there stands its number,
 * the first of 17, 18 and 19 that is so:
 *
 *    3  controller applied
 *   17  controller not in the kind's table, or above 127
 *   18  value out of range, or above 127
 *   19  its effect is not selected (never on a Bass POD)
 *
 * Gives 0 where the list was taken, whatever the numbers of its moves; what is lent behind them keeps its bytes. Else
 * gives the first of these that is so, and nothing at all has changed, no byte of `numbers` either:
 *
 *   33  more than 256 moves
 *   34  numbers_length below count
 *   32  a kind that is none
 *   30  memory too short
 *   31  player not 0 or 1
 *   32  a setting out of range
 *
 * Bits 8 and up are 0. The moves are on the box's own channel, so 20 cannot come; the other settings are only tested.
 * An empty list is taken, with an empty number buffer too. */
uint64_t costerbloom_moves(const costerbloom_move *moves, size_t count, uint32_t player, uint32_t kind,
    uint8_t channel, uint8_t omni, uint8_t revision0, uint8_t revision1, uint8_t revision2, uint8_t revision3,
    uint8_t *memory, size_t memory_length, uint8_t *numbers, size_t numbers_length);

/* The number that a controller of the kind stores for a value, whatever memory holds: the formula's, raised on a POD
 * for 51 to at least 200, for 58 to at least 150 and for 54 to at least 1. Below 65536, or 65536 + the refusal: 32 for
 * a kind that is none, then 17 or 18 as above. A POD's controllers 30 and 62 need a stored number and are 17 here. */
uint32_t costerbloom_scale(uint32_t controller, uint32_t value, uint32_t kind);

/* The smallest value of a controller of the kind that gives what its bytes of the player's edit buffer hold: the value,
 * at most 127, or 65536 + the refusal: 32 for a kind that is none, then 30, 31 for the player, 17 or 19 as above, or 40
 * where no value gives it: a dump can bring any number, one below a least number or an amp model that the kind does not
 * know too. `memory` is all of it, as for the others. */
uint32_t costerbloom_back(
    uint32_t controller, uint32_t player, uint32_t kind, const uint8_t *memory, size_t memory_length);

/* What a player's screen shows: the bytes of a shared program, where `own` is 0, or else of the player's own edit
 * buffer, whatever `program` is. `programs` has the 36 programs, `buffer` this player's edit buffer; both are only read
 * and may overlap. With memory as the other calls have it, of a POD:
 *
 *   costerbloom_part part = { memory, 0 };
 *   costerbloom_screen(&part, program, own, player, COSTERBLOOM_POD,
 *       memory, COSTERBLOOM_EDIT_OF(COSTERBLOOM_POD_PROGRAM, COSTERBLOOM_PLAYER_ONE),
 *       memory + COSTERBLOOM_EDIT_OF(COSTERBLOOM_POD_PROGRAM, player), COSTERBLOOM_POD_PROGRAM);
 *
 * Gives 0, and the part is the program's 72 bytes (80 on a Bass POD) inside `programs`, or the first so many of
 * `buffer`. Nothing is copied: the part shows what later calls store there. Else gives the first of these that is so,
 * and the part is empty, { programs, 0 }:
 *
 *   32  a kind that is none
 *   30  programs or buffer too short, also the one that is not asked for
 *   31  player not 0 or 1
 *   14  program above 0x23, where `own` is 0
 *
 * Bits 8 and up are 0. `part` must hold a part before the call too, as { programs, 0 }: its pointer may not be null. */
uint64_t costerbloom_screen(costerbloom_part *part, uint32_t program, uint32_t own, uint32_t player, uint32_t kind,
    const uint8_t *programs, size_t programs_length, const uint8_t *buffer, size_t buffer_length);

/* Whether the kind knows an amp model, which byte 8 of a program holds, on a Bass POD byte 3: 1 where it does, up to 27
 * on a POD, 31 on a POD Pro and 15 on a Bass POD, else 0; or 65536 + 32 for a kind that is none. Dumps are stored and
 * sent whatever models they bring. */
uint32_t costerbloom_amp(uint32_t model, uint32_t kind);

#ifdef __cplusplus
}
#endif

#endif
