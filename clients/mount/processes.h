/* How a process is named in lines. */
#ifndef PROCESSES_H
#define PROCESSES_H

#include <sys/types.h>

#define PROCESS_ROOM 64

/* Its command's name, in printed ASCII: a process may call itself whatever it likes. */
void name_of_process(pid_t process, char name[PROCESS_ROOM]);

#endif
