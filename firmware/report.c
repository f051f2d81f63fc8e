#include "report.h"

#include <system.h>

void say(const char *text)
{
    size_t length = 0;
    while (text[length] != '\0')
        length++;
    write(STANDARD_ERROR, text, length);
}

void say_number(unsigned long number)
{
    char text[21]; /* the longest has 20 digits */
    char *digit = text + sizeof text - 1;
    *digit = '\0';
    do {
        *--digit = (char)('0' + number % 10);
        number /= 10;
    } while (number != 0);
    say(digit);
}

_Bool failed(const char *verb, const char *name)
{
    const char *reason = strerrordesc_np(errno);
    say("box: cannot ");
    say(verb);
    say(" ");
    say(name);
    say(": ");
    say(reason ? reason : "unknown error");
    say("\n");
    return 0;
}
