#include "programs.h"

#include "report.h"
#include <system.h>

enum { NOT_OPEN = -1 };

/* What a file has: so many programs, edit buffers among them, then so many marks. The first form is the one that is
 * written, the others are those of one player, with marks and without. */
static const struct form {
    size_t programs, marks;
} forms[] = {{COSTERBLOOM_MARKS, COSTERBLOOM_MARKS}, {37, 37}, {37, 0}};
static const struct form *const forms_end = forms + sizeof forms / sizeof *forms;

static char new_name[4096]; /* the system's own limit, with the closing zero */
static int new_file = NOT_OPEN;

static void say_that(const char *name, const char *what)
{
    say("box: ");
    say(name);
    say(what);
}

static size_t length_of(const struct form *form, size_t program)
{
    return form->programs * program + form->marks;
}

/* A file of another length is not ours, or is of a kind whose programs have another size: it is refused here, before
 * anything of it could be written over. A POD's and a POD Pro's cannot be told apart, and need not be. */
static _Bool has_another_length(const char *name, size_t found, size_t program)
{
    say_that(name, " is not a programs file of this kind: it has ");
    say_number(found);
    say(" bytes and not ");
    for (const struct form *form = forms; form < forms_end; form++) {
        say(form == forms ? "" : " or ");
        say_number(length_of(form, program));
    }
    say("\n");
    return 0;
}

/* With another number among them the library would refuse every byte: the file is refused before. */
static _Bool are_marks(const char *name, const uint8_t *marks)
{
    for (size_t place = 0; place < COSTERBLOOM_MARKS; place++)
        if (marks[place] > 1) {
            say_that(name, " is not a programs file: its mark ");
            say_number(place);
            say(" is ");
            say_number(marks[place]);
            say(" and neither 0 nor 1\n");
            return 0;
        }
    return 1;
}

static _Bool read_part(int file, const char *name, size_t place, uint8_t *part, size_t length)
{
    return pread(file, part, length, (long)place) == (ptrdiff_t)length || failed("read", name);
}

static _Bool read_whole(int file, const char *name, uint8_t *memory, size_t program, uint8_t *marks)
{
    long found = lseek(file, 0, SEEK_END);
    if (found < 0)
        return failed("read", name);
    const struct form *form = forms;
    while (form < forms_end && length_of(form, program) != (size_t)found)
        form++;
    if (form == forms_end)
        return has_another_length(name, (size_t)found, program);
    size_t length = form->programs * program;
    return read_part(file, name, 0, memory, length) && read_part(file, name, length, marks, form->marks) &&
           are_marks(name, marks);
}

_Bool programs_load(const char *name, uint8_t *memory, size_t program, uint8_t *marks, _Bool *found)
{
    int file = open(name, O_RDONLY);
    *found = file >= 0;
    if (file < 0)
        return errno == ENOENT || failed("read", name);
    _Bool whole = read_whole(file, name, memory, program, marks);
    close(file);
    return whole;
}

/* Makes NAME.new of NAME. */
static _Bool name_new(const char *name)
{
    static const char ending[] = ".new";
    size_t length = 0;
    for (; name[length] != '\0'; length++) {
        if (length + sizeof ending == sizeof new_name) {
            errno = ENAMETOOLONG;
            return 0;
        }
        new_name[length] = name[length];
    }
    for (size_t place = 0; place < sizeof ending; place++)
        new_name[length + place] = ending[place];
    return 1;
}

_Bool programs_prepare(const char *name)
{
    if (!name_new(name))
        return failed("write", name);
    new_file = open(new_name, O_WRONLY | O_CREAT | O_TRUNC, 0666);
    return new_file >= 0 || failed("write", new_name);
}

static _Bool write_part(const uint8_t *part, size_t length)
{
    for (size_t written = 0; written < length;) {
        ptrdiff_t count = write(new_file, part + written, length - written);
        if (count < 0)
            return 0;
        written += (size_t)count;
    }
    return 1;
}

/* The old file stands until the new one is whole and on the disk: a failure half way loses no program. */
static _Bool replace(const char *name, const uint8_t *memory, size_t program, const uint8_t *marks)
{
    if (!write_part(memory, COSTERBLOOM_MEMORY_OF(program)) || !write_part(marks, COSTERBLOOM_MARKS) ||
        fsync(new_file) != 0)
        return failed("write", new_name);
    if (rename(new_name, name) != 0)
        return failed("replace", name);
    return 1;
}

_Bool programs_save(const char *name, const uint8_t *memory, size_t program, const uint8_t *marks)
{
    if (new_file == NOT_OPEN && !programs_prepare(name))
        return 0;
    _Bool replaced = replace(name, memory, program, marks);
    close(new_file);
    new_file = NOT_OPEN; /* the next save begins an empty one */
    return replaced;
}

void programs_leave(void)
{
    if (new_file != NOT_OPEN)
        unlink(new_name);
}
