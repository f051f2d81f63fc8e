/* Plays a script through the C interface: reads it on standard input and prints its lines, both in the form of
 * second/REPLAY.md, whose words stand in the comments. */
#include <costerbloom.h>
#include <system.h>

enum { MESSAGE_ROOM = 8192, MEMORY_ROOM = 3100, MARKS_ROOM = 40, BUFFER_ROOM = 5800, AT_ONCE = 65536 };
enum { MEMORY, RECEIVE, REPLY = 3, MARKS, PROGRAMS, OWN, LENT };
enum { TAKEN = 0, REPLIED = 2 };

/* What the player keeps, "all zero at first" but for the marks, "all 1 at first". */
static uint8_t message[MESSAGE_ROOM];
static size_t message_length;
static uint8_t memory[MEMORY_ROOM], marks[MARKS_ROOM], receive[2][BUFFER_ROOM], reply[BUFFER_ROOM];
static costerbloom_receiver receivers[2];
static uint32_t controller, player, kind;
static uint64_t calls;
static uint8_t channel, omni, revision[4] = {0x30, 0x31, 0x30, 0x30};
/* How much is lent of each buffer; of the screen's two, which lie in memory, the end of the one and where the other
 * begins. */
static const size_t rooms[LENT] = {
    MEMORY_ROOM, BUFFER_ROOM, BUFFER_ROOM, BUFFER_ROOM, MARKS_ROOM, MEMORY_ROOM, MEMORY_ROOM};
static size_t lent[LENT] = {COSTERBLOOM_POD_MEMORY, COSTERBLOOM_POD_LONGEST, COSTERBLOOM_POD_LONGEST,
    COSTERBLOOM_POD_LONGEST, COSTERBLOOM_MARKS, COSTERBLOOM_EDIT_OF(COSTERBLOOM_POD_PROGRAM, COSTERBLOOM_PLAYER_ONE),
    COSTERBLOOM_EDIT_OF(COSTERBLOOM_POD_PROGRAM, COSTERBLOOM_PLAYER_ONE)};

/* "A script is a run of 4-byte commands" */
typedef struct {
    uint8_t op, a, b, v;
} command;

static size_t least(size_t a, size_t b)
{
    return a < b ? a : b;
}

/* Printing */

static char printed[AT_ONCE];
static size_t printed_length;

static void flush(void)
{
    for (size_t done = 0; done < printed_length;) {
        ptrdiff_t more = write(STANDARD_OUTPUT, printed + done, printed_length - done);
        if (more <= 0)
            _exit(1);
        done += (size_t)more;
    }
    printed_length = 0;
}

static void print(char c)
{
    if (printed_length == AT_ONCE)
        flush();
    printed[printed_length++] = c;
}

static void print_field(uint64_t number)
{
    char digits[20];
    size_t count = 0;
    do {
        digits[count++] = (char)('0' + number % 10);
        number /= 10;
    } while (number != 0);
    print('\t');
    while (count != 0)
        print(digits[--count]);
}

static void print_hex(char letter, const uint8_t *bytes, size_t length)
{
    print(letter);
    print('\t');
    for (size_t i = 0; i < length; i++) {
        print("0123456789abcdef"[bytes[i] >> 4]);
        print("0123456789abcdef"[bytes[i] & 15]);
    }
    print('\n');
}

/* "the sum over all places i of (i + 1) x byte i, of the whole buffer" */
static uint64_t digest(const uint8_t *bytes, size_t length)
{
    uint64_t sum = 0;
    for (size_t i = 0; i < length; i++)
        sum += (uint64_t)(i + 1) * bytes[i];
    return sum;
}

static uint64_t as_number(const costerbloom_receiver *r)
{
    return r->stored | (uint64_t)r->inside << 16 | (uint64_t)r->over << 24 | (uint64_t)r->running << 32 |
           (uint64_t)r->held << 40 | (uint64_t)r->waiting << 48;
}

static void print_answer(char letter, uint64_t answer)
{
    uint64_t length = answer >> 8; /* with bits 24 and up, which must be 0 */
    print(letter);
    print_field(calls);
    print_field(answer & 0xFF);
    print_field(length);
    print_field(digest(memory, MEMORY_ROOM));
    print_field(digest(marks, MARKS_ROOM));
    print_field(digest(reply, BUFFER_ROOM));
    print_field(digest(receive[0], BUFFER_ROOM));
    print_field(digest(receive[1], BUFFER_ROOM));
    print_field(as_number(&receivers[0]));
    print_field(as_number(&receivers[1]));
    print('\n');
    if ((answer & 0xFF) == REPLIED)
        print_hex('r', reply, least(length, BUFFER_ROOM));
}

static void print_value(char letter, uint32_t value)
{
    print(letter);
    print_field(calls);
    print_field(value);
    print('\n');
}

/* Calls */

static void take(uint32_t socket, uint8_t byte)
{
    size_t own = socket != 0; /* "any other number is lent receiver and receive buffer 1" */
    uint64_t answer = costerbloom_take(&receivers[own], socket, byte, kind, channel, omni, revision[0], revision[1],
        revision[2], revision[3], memory, lent[MEMORY], marks, lent[MARKS], receive[own], lent[RECEIVE + own], reply,
        lent[REPLY]);
    if (answer != TAKEN) /* a length beside number 0 would be printed, and seen */
        print_answer('S', answer);
    calls++;
}

static void feed(uint32_t socket)
{
    for (size_t i = 0; i < message_length; i++)
        take(socket, message[i]);
}

static void whole(void)
{
    print_answer('W', costerbloom_whole(message, message_length, player, kind, channel, omni, revision[0], revision[1],
                          revision[2], revision[3], memory, lent[MEMORY], marks, lent[MARKS], reply, lent[REPLY]));
    calls++;
}

/* "the moves that the message holds, two bytes each, controller then value: length / 2 of them" */
static void move_all(void)
{
    static costerbloom_move moves[MESSAGE_ROOM / 2];
    size_t count = message_length / 2;
    for (size_t i = 0; i < count; i++)
        moves[i] = (costerbloom_move){message[2 * i], message[2 * i + 1]};
    uint64_t answer = costerbloom_moves(moves, count, player, kind, channel, omni, revision[0], revision[1],
        revision[2], revision[3], memory, lent[MEMORY], reply, lent[REPLY]);
    print_answer('V', answer);
    if ((answer & 0xFF) == TAKEN)
        print_hex('n', reply, count);
    calls++;
}

static void scale(uint32_t value)
{
    print_value('K', costerbloom_scale(controller, value, kind));
    calls++;
}

static void back(void)
{
    print_value('D', costerbloom_back(controller, player, kind, memory, lent[MEMORY]));
    calls++;
}

static void amp(uint32_t model)
{
    print_value('G', costerbloom_amp(model, kind));
    calls++;
}

/* A part that lies elsewhere than it must could show the right bytes, or lead out of what is lent: it is not read. */
static _Noreturn void misplaced(void)
{
    static const char said[] = "play: the screen's part is not where it must be, at call";
    flush();
    write(STANDARD_ERROR, said, sizeof said - 1);
    print_field(calls);
    print('\n');
    write(STANDARD_ERROR, printed, printed_length);
    _exit(1);
}

/* "the programs that X lends are the first n bytes of memory", "the own buffer that X lends is memory from place n on
 * to its end". The part begins where the own buffer does, or so many parts of its length behind the programs' begin,
 * and ends inside; after a refusal it begins where the programs do, and is empty. */
static void screen(uint32_t own)
{
    const uint8_t *buffer = memory + lent[OWN];
    costerbloom_part part = {reply, 1}; /* another than any that is handed out */
    uint64_t answer = costerbloom_screen(
        &part, controller, own, player, kind, memory, lent[PROGRAMS], buffer, MEMORY_ROOM - lent[OWN]);
    _Bool of_own = answer == TAKEN && own != 0;
    size_t before = answer == TAKEN && own == 0 ? controller * part.length : 0;
    size_t room = of_own ? MEMORY_ROOM - lent[OWN] : lent[PROGRAMS];
    if (part.bytes != (of_own ? buffer : memory) + before || before + part.length > room)
        misplaced();
    print('X');
    print_field(calls);
    print_field(answer); /* with bits 8 and up, which must be 0 */
    print_field(part.length);
    print_field(digest(part.bytes, part.length));
    print('\n');
    if (answer == TAKEN)
        print_hex('x', part.bytes, part.length);
    calls++;
}

/* Commands */

static void pattern(size_t from, uint8_t v)
{
    for (size_t place = from; place < message_length; place++)
        message[place] = (uint8_t)((v + 7 * place) % 16);
}

static void set_receiver(costerbloom_receiver *r, unsigned part, uint8_t v)
{
    switch (part) {
        case 0: r->stored = (uint16_t)((r->stored & 0xFF00) | v); break;
        case 1: r->stored = (uint16_t)((r->stored & 0xFF) | v << 8); break;
        case 2: r->inside = v; break;
        case 3: r->over = v; break;
        case 4: r->running = v; break;
        case 5: r->held = v; break;
        case 6: r->waiting = v; break;
    }
}

static void set_channel(uint8_t a, uint8_t b)
{
    channel = a;
    omni = b;
}

static void play(command c)
{
    uint32_t n = c.a + 256u * c.b, wide = n + ((uint32_t)c.v << 24), socket = c.a + ((uint32_t)c.b << 24);
    switch (c.op) {
        case 'L': message_length = least(n, MESSAGE_ROOM); break;
        case 'B': message[n % MESSAGE_ROOM] = c.v; break;
        case 'P': pattern(n, c.v); break;
        case 'Y': memory[n % MEMORY_ROOM] = c.v; break;
        case 'A': marks[n % MARKS_ROOM] = c.v; break;
        case 'C': set_channel(c.a, c.b); break;
        case 'R': revision[c.a % 4] = c.v; break;
        case 'Z': lent[c.v % LENT] = least(n, rooms[c.v % LENT]); break;
        case 'E': set_receiver(&receivers[c.b % 2], c.a % 8, c.v); break;
        case 'N': controller = controller << 16 | n; break;
        case 'T': kind = wide; break;
        case 'O': player = wide; break;
        case 'W': whole(); break;
        case 'V': move_all(); break;
        case 'S': take(socket, c.v); break;
        case 'M': feed(socket); break;
        case 'K': scale(wide); break;
        case 'D': back(); break;
        case 'G': amp(wide); break;
        case 'X': screen(wide); break;
    }
}

/* Reading */

static int next_byte(uint8_t *byte)
{
    static uint8_t script[AT_ONCE];
    static size_t place, length;
    if (place == length) {
        ptrdiff_t more = read(STANDARD_INPUT, script, AT_ONCE);
        if (more < 0)
            _exit(1);
        place = 0;
        length = (size_t)more;
    }
    if (place == length)
        return 0;
    *byte = script[place++];
    return 1;
}

/* "A rest of fewer than 4 bytes at the end is ignored" */
static int next_command(command *c)
{
    return next_byte(&c->op) && next_byte(&c->a) && next_byte(&c->b) && next_byte(&c->v);
}

int main(void)
{
    command c;
    for (size_t place = 0; place < MARKS_ROOM; place++)
        marks[place] = 1;
    while (next_command(&c))
        play(c);
    print_hex('m', memory, MEMORY_ROOM);
    print_hex('k', marks, MARKS_ROOM);
    print('c');
    print_field(calls);
    print('\n');
    flush();
}
