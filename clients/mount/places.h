/* Places in the file system: where files to write may be. */
#ifndef PLACES_H
#define PLACES_H

#include <stdbool.h>

/* The path from the root on of what may not be there yet; links are followed. NULL if its directory isn't there. */
char *place_of_file(const char *path);

/* Whether the path is below the directory, or is it. */
bool is_below(const char *path, const char *directory);

/* The directory's real path. Ends the process if it isn't an empty directory. */
char *empty_directory(const char *path);

/* The program landtree: what was asked for, or is beside this one, or on the PATH. */
char *program_place(const char *asked);

#endif
