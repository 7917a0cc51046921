/* Signs of UTF-8, of texts that others have written. */
#include "command.h"

#define UNKNOWN 0xfffd

/* The bits of a sign in its first byte, and how many bytes follow; -1 if no sign begins with it. The second byte is in a range. */
static int begin_of(unsigned char byte, uint32_t *sign, unsigned char *least, unsigned char *most) {
    *least = byte == 0xe0 ? 0xa0 : byte == 0xf0 ? 0x90 : 0x80;
    *most = byte == 0xed ? 0x9f : byte == 0xf4 ? 0x8f : 0xbf;
    *sign = byte < 0x80 ? byte : byte < 0xe0 ? byte & 0x1fu : byte < 0xf0 ? byte & 0xfu : byte & 7u;
    if (byte < 0x80) return 0;
    if (byte < 0xc2 || byte > 0xf4) return -1;
    return byte < 0xe0 ? 1 : byte < 0xf0 ? 2 : 3;
}

/* Takes the next sign of a text that isn't at its end. What isn't UTF-8 is U+FFFD, as many bytes of it as could begin a sign. */
uint32_t next_sign(const char **at) {
    unsigned char least, most;
    uint32_t sign;
    int more = begin_of((unsigned char)*(*at)++, &sign, &least, &most);
    if (more < 0) return UNKNOWN;
    for (; more > 0; more--) {
        unsigned char byte = (unsigned char)**at;
        if (byte < least || byte > most) return UNKNOWN;
        sign = sign << 6 | (byte & 0x3f);
        least = 0x80;
        most = 0xbf;
        ++*at;
    }
    return sign;
}

/* Adds a text without signs that a terminal would act on. */
void add_plain(struct text *text, const char *from) {
    while (*from != 0) {
        uint32_t sign = next_sign(&from);
        add(text, "%c", sign >= ' ' && sign <= '~' ? (int)sign : '?');
    }
}
