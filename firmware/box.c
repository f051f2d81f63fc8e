/* The box on a bench: two inputs and two outputs (files, pipes or devices) stand for the players' two MIDI sockets, and
 * a file for the memory and the marks that outlive the power. All that is judged, stored and answered is the proved
 * library's work; this loop brings it the bytes and carries its replies away.
 *
 * As on a MIDI wire, one byte goes at a time: a turn takes one byte from each input that is ready, or brings one byte
 * of a reply to an output. Once all is open nothing but poll waits for a byte, so neither socket waits for the other.
 * Once something was stored and no byte can be moved, memory and marks are saved, at most once a second: what a power
 * cut can lose is what came since the last save. */
#include <costerbloom.h>
#include <system.h>

#include "programs.h"
#include "report.h"

enum { CHANNEL = 0, OMNI = 0 };
enum { REVISION0 = 0x30, REVISION1 = 0x31, REVISION2 = 0x30, REVISION3 = 0x30 };

enum { DONE = 0, FAILED = 1, MISUSED = 2, FAULT = 3 }; /* exit status */
enum { SOCKETS = 2 };
enum { STORED = 1, APPLIED = 3, FIRST_FAULT = 30 }; /* numbers; 30 to 32 blame the caller: this file */
enum { BETWEEN_SAVES = 1000 }; /* milliseconds */

/* What a box can be set as: a word for the kind, and how many bytes a program has. */
static const struct unit {
    const char *word;
    uint32_t kind;
    size_t program;
} units[] = {
    {"pod", COSTERBLOOM_POD, COSTERBLOOM_POD_PROGRAM},
    {"bass", COSTERBLOOM_BASS_POD, COSTERBLOOM_BASS_POD_PROGRAM},
    {"pro", COSTERBLOOM_POD_PRO, COSTERBLOOM_POD_PRO_PROGRAM},
};

struct wire {
    const char *name;
    int descriptor; /* -1: left out, and poll looks past it */
};

struct socket {
    struct wire input, output;
    costerbloom_receiver receiver;
    uint8_t receive[COSTERBLOOM_LONGEST];
    uint8_t reply[COSTERBLOOM_LONGEST];
    size_t reply_length, sent; /* sent < reply_length: a reply is on its way */
};

/* All zero at the start: fresh memory, fresh receivers; as long as any kind needs them. Fresh marks are 1, and are
 * set in `load`. */
static uint8_t memory[COSTERBLOOM_MEMORY];
static uint8_t marks[COSTERBLOOM_MARKS];
static struct socket sockets[SOCKETS];
static const struct unit *unit;
static int stop_pipe[2]; /* a signal to stop is one more thing that poll can wait for */

/* What the programs file lacks: nothing, itself (there was none), or what a byte has stored. */
static enum { NOTHING, ITSELF, A_STORE } lacking;
static long next_save; /* not before this time */

static void ask_to_stop(int number)
{
    (void)number;
    write(stop_pipe[1], "", 1);
}

/* A signal ends the loop as the end of both inputs does: between two bytes, and memory is saved. The C library's signal
 * starts an interrupted read or write again, but never poll. */
static _Bool catch_signals(void)
{
    if (pipe2(stop_pipe, O_NONBLOCK) != 0)
        return failed("open", "a pipe");
    signal(SIGINT, ask_to_stop);
    signal(SIGTERM, ask_to_stop);
    signal(SIGPIPE, SIG_IGN); /* an output that nobody reads any more is an error of its write */
    return 1;
}

static _Bool open_wire(struct wire *wire, const char *name, int flags)
{
    wire->name = name;
    wire->descriptor = open(name, flags, 0666);
    return wire->descriptor >= 0 || failed("open", name);
}

static _Bool open_sockets(char **inputs, char **outputs)
{
    for (int which = 0; which < SOCKETS; which++)
        if (!open_wire(&sockets[which].input, inputs[which], O_RDONLY))
            return 0;
    for (int which = 0; which < SOCKETS; which++)
        if (!open_wire(&sockets[which].output, outputs[which], O_WRONLY | O_CREAT | O_TRUNC))
            return 0;
    return 1;
}

/* The library found the caller at fault, which no byte can bring about: this program is wrong, or its own memory is
 * spoiled. What the programs file holds is then the safer copy, so nothing is saved over it. */
static _Noreturn void give_up(unsigned number)
{
    say("box: the library answered ");
    say_number(number);
    say(", a fault of the firmware; the programs file stays as it was\n");
    _exit(FAULT);
}

static void take(uint32_t which, uint8_t byte)
{
    struct socket *socket = &sockets[which];
    uint64_t answer = costerbloom_take(&socket->receiver, which, byte, unit->kind, CHANNEL, OMNI, REVISION0, REVISION1,
        REVISION2, REVISION3, memory, sizeof memory, marks, sizeof marks, socket->receive, sizeof socket->receive,
        socket->reply, sizeof socket->reply);
    unsigned number = answer & 0xFF;
    if (number >= FIRST_FAULT)
        give_up(number);
    if (number == STORED || number == APPLIED)
        lacking = A_STORE;
    socket->reply_length = answer >> 8 & 0xFFFF; /* 0 unless a reply was written */
    socket->sent = 0;
}

static _Bool on_its_way(const struct socket *socket)
{
    return socket->sent < socket->reply_length;
}

/* The next byte of a socket: out, while a reply is on its way; else in. Gives 0 where the byte could not be moved. */
static _Bool turn(uint32_t which)
{
    struct socket *socket = &sockets[which];
    if (on_its_way(socket)) {
        if (write(socket->output.descriptor, socket->reply + socket->sent, 1) != 1)
            return failed("write", socket->output.name);
        socket->sent++;
        return 1;
    }
    uint8_t byte;
    ptrdiff_t count = read(socket->input.descriptor, &byte, 1);
    if (count < 0)
        return failed("read", socket->input.name);
    if (count == 0)
        socket->input.descriptor = -1;
    else
        take(which, byte);
    return 1;
}

/* A socket that failed is left out; the other goes on, as if this one had been unplugged. */
static void leave_out(struct socket *socket)
{
    socket->input.descriptor = -1;
    socket->reply_length = 0;
}

static struct pollfd awaited(const struct socket *socket)
{
    if (on_its_way(socket))
        return (struct pollfd){socket->output.descriptor, POLLOUT, 0};
    return (struct pollfd){socket->input.descriptor, POLLIN, 0};
}

static long now(void)
{
    struct timespec time;
    clock_gettime(CLOCK_MONOTONIC, &time);
    return time.seconds * 1000 + time.nanoseconds / 1000000;
}

/* How long poll waits for a byte: until what is stored may be saved, or for ever (-1). */
static int patience(void)
{
    if (lacking != A_STORE)
        return -1;
    long left = next_save - now();
    return left > 0 ? (int)left : 0;
}

/* A save that fails has said so. The programs are still here, and it is tried again a second later. */
static _Bool save(const char *programs)
{
    _Bool saved = programs_save(programs, memory, unit->program, marks);
    if (saved)
        lacking = NOTHING;
    next_save = now() + BETWEEN_SAVES;
    return saved;
}

/* Runs until both inputs have ended or a signal came. Gives 0 where a byte could not be moved. */
static _Bool run(const char *programs)
{
    _Bool well = 1;
    for (;;) {
        struct pollfd waits[SOCKETS + 1] = {awaited(&sockets[0]), awaited(&sockets[1]), {stop_pipe[0], POLLIN, 0}};
        if (waits[0].fd < 0 && waits[1].fd < 0)
            return well;
        int ready = poll(waits, SOCKETS + 1, patience());
        if (ready < 0 && errno != EINTR)
            return failed("wait for", "the sockets");
        if (ready == 0) /* no byte can be moved, and a save is due */
            save(programs);
        if (waits[SOCKETS].revents != 0)
            return well;
        for (uint32_t which = 0; which < SOCKETS; which++)
            if (waits[which].revents != 0 && !turn(which)) {
                leave_out(&sockets[which]);
                well = 0;
            }
    }
}

/* Sets the box as the kind of this word. */
static _Bool set_as(const char *word)
{
    for (size_t place = 0; place < sizeof units / sizeof *units; place++)
        if (strcmp(word, units[place].word) == 0)
            unit = &units[place];
    return unit != NULL;
}

static _Bool load(const char *programs)
{
    _Bool found;
    for (size_t place = 0; place < sizeof marks; place++)
        marks[place] = 1;
    if (!programs_load(programs, memory, unit->program, marks, &found))
        return 0;
    lacking = found ? NOTHING : ITSELF;
    return 1;
}

int main(int count, char **words)
{
    if (count != 7 || !set_as(words[1])) {
        say("usage: box KIND PROGRAMS INPUT0 INPUT1 OUTPUT0 OUTPUT1\n"
            "KIND is the word pod, bass or pro. Bytes that come on sockets 0 and 1, from player one and player two,\n"
            "are read from INPUT0 and INPUT1, replies are written to OUTPUT0 and OUTPUT1. The file PROGRAMS keeps the\n"
            "programs, both players' edit buffers and the marks, 2774 bytes of a pod or a pro, 3078 of a bass, from\n"
            "one run to the next: it is read at the start, also one of an earlier version, for one player or without\n"
            "marks, and replaced where something was stored: as soon as no byte waits, at most once a second, and\n"
            "when both inputs have ended, or at SIGINT or SIGTERM. A pod reads a pro's file, and a pro a pod's.\n");
        return MISUSED;
    }
    const char *programs = words[2];
    if (!load(programs) || !open_sockets(words + 3, words + 5) || !catch_signals() || !programs_prepare(programs))
        return FAILED;
    _Bool well = run(programs);
    _Bool saved = lacking == NOTHING || save(programs);
    programs_leave();
    return saved && well ? DONE : FAILED;
}
