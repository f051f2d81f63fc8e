/* What the firmware tells its user, on standard error: by hand, since printf may allocate. */
#ifndef REPORT_H
#define REPORT_H

void say(const char *text);

/* A number, decimal. */
void say_number(unsigned long number);

/* Says that the box cannot do this to the named file, and why (errno). Always 0, for a caller to give back. */
_Bool failed(const char *verb, const char *name);

#endif
