/* Lines on standard error, each behind the program's name, and the status of the program's own faults. */
#ifndef FAULTS_H
#define FAULTS_H

#define OWN_FAULT 125
#define WRONG_WORDS 2

void report(const char *format, ...) __attribute__((format(printf, 1, 2)));

/* Writes the line, and ends the process with the status of an own fault. */
void give_up(const char *format, ...) __attribute__((format(printf, 1, 2), noreturn));

/* Memory that was asked for, or the end of the process: only before there is a mount. */
void *wanted(void *memory);

#endif
