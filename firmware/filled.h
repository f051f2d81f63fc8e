/* Buffers that are filled before a call, and looked at behind it. */
#include <stddef.h>
#include <stdint.h>

static inline void fill(void *bytes, size_t length, uint8_t value)
{
    for (size_t place = 0; place < length; place++)
        ((uint8_t *)bytes)[place] = value;
}

static inline _Bool is_full_of(const uint8_t *bytes, size_t length, uint8_t value)
{
    for (size_t place = 0; place < length; place++)
        if (bytes[place] != value)
            return 0;
    return 1;
}
