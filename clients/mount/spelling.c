/* How names and bytes are spelled in the tree; names as `landtree-sandbox convert` spells them. */
#include "spelling.h"
#include <stdio.h>
#include <string.h>

bool spell(char spelled[SPELLED_ROOM], const char *name) {
    if (strlen(name) > NAME_MOST) return false;
    for (; *name != 0; name++) {
        unsigned char byte = (unsigned char)*name;
        if (byte > ' ' && byte < 127 && byte != '%') *spelled++ = (char)byte;
        else spelled += sprintf(spelled, "%%%02X", byte);
    }
    *spelled = 0;
    return true;
}

static int digit(char sign) {
    if (sign >= '0' && sign <= '9') return sign - '0';
    return sign >= 'A' && sign <= 'F' ? sign - 'A' + 10 : -1;
}

void unspell(char *name) {
    char *out = name;
    while (*name != 0) {
        if (*name == '%' && digit(name[1]) >= 0 && digit(name[2]) >= 0) {
            *out++ = (char)(digit(name[1]) << 4 | digit(name[2]));
            name += 3;
        } else {
            *out++ = *name++;
        }
    }
    *out = 0;
}

void spell_bytes(char *digits, const char *bytes, size_t count) {
    static const char signs[] = "0123456789abcdef";
    for (size_t i = 0; i < count; i++) {
        *digits++ = signs[(unsigned char)bytes[i] >> 4];
        *digits++ = signs[(unsigned char)bytes[i] & 15];
    }
}

static int value(char sign) { return sign <= '9' ? sign - '0' : sign - 'a' + 10; }

size_t unspell_bytes(char *bytes, size_t most, const char *digits) {
    size_t count = 0;
    if (*digits == '-') return 0;
    for (; digits[0] != 0 && digits[1] != 0 && count < most; digits += 2)
        bytes[count++] = (char)(value(digits[0]) << 4 | value(digits[1]));
    return count;
}
