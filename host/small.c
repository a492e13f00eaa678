/* memcpy and memset as a small guest may have them: a byte at a time. For measuring, by small.sh. */
#include <stddef.h>

void *small_memcpy(void *to, const void *from, size_t length)
{
    unsigned char *out = to;
    const unsigned char *in = from;
    for (size_t i = 0; i < length; i++)
        out[i] = in[i];
    return to;
}

void *small_memset(void *to, int byte, size_t length)
{
    unsigned char *out = to;
    for (size_t i = 0; i < length; i++)
        out[i] = (unsigned char)byte;
    return to;
}
