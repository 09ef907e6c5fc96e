/* How a process is named in lines. */
#include "processes.h"
#include <stdio.h>
#include <string.h>

void name_of_process(pid_t process, char name[PROCESS_ROOM]) {
    char path[64];
    snprintf(path, sizeof path, "/proc/%d/comm", (int)process);
    strcpy(name, "?");
    FILE *file = fopen(path, "re");
    if (file == NULL) return;
    if (fgets(name, PROCESS_ROOM, file) != NULL) name[strcspn(name, "\n")] = 0;
    fclose(file);
    for (char *sign = name; *sign != 0; sign++)
        if (*sign < ' ' || *sign > '~') *sign = '?';
}
