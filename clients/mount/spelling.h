/* How names and bytes are spelled in the tree: a name in printed ASCII, any other byte, and the percent sign, as %XX;
 * bytes as two hexadecimal digits each, and none as a hyphen. */
#ifndef SPELLING_H
#define SPELLING_H

#include "limits.h"
#include <stdbool.h>
#include <stddef.h>

/* Whether the name isn't too long: it has at most 255 bytes. (What is spelled may be too long for the tree all the
 * same, which says so itself.) */
bool spell(char spelled[SPELLED_ROOM], const char *name);

/* Undoes it in place. */
void unspell(char *name);

/* Writes two digits a byte, and no end. */
void spell_bytes(char *digits, const char *bytes, size_t count);

/* At most so many bytes; how many there were. */
size_t unspell_bytes(char *bytes, size_t most, const char *digits);

#endif
