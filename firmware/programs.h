/* The box's memory and marks, kept in a file from one run to the next: memory, as a kind with programs of so many bytes
 * has it, then the 38 marks, and nothing else. Each call gives 1, or says what is wrong and gives 0. */
#ifndef PROGRAMS_H
#define PROGRAMS_H

#include <costerbloom.h>

/* Reads memory and marks from the file. Where there is no file, both stay as they were lent: fresh. Files of earlier
 * versions, for one player and with marks or without, are read too, and what they lack stays fresh: player two's edit
 * buffer and mark, and the marks of a box that took no short dump. */
_Bool programs_load(const char *name, uint8_t *memory, size_t program, uint8_t *marks, _Bool *found);

/* Opens NAME.new for the save to come, so that a folder that cannot be written is told before the first byte. */
_Bool programs_prepare(const char *name);

/* Writes both to NAME.new, which then takes the file's place. May be called again, whether or not it failed. */
_Bool programs_save(const char *name, const uint8_t *memory, size_t program, const uint8_t *marks);

/* Removes NAME.new where no save has used it. */
void programs_leave(void);

#endif
