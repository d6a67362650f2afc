/* How the host's functions say what went wrong: NULL where nothing did, else one line for the user. */
#ifndef COMPLAINT_H
#define COMPLAINT_H

typedef const char *complaint;

/* The line that the format makes. It stands until the next call. */
complaint complain(const char *format, ...) __attribute__((format(printf, 1, 2)));

/* A line on standard error where nothing went wrong that the user should know. */
void remark(const char *format, ...) __attribute__((format(printf, 1, 2)));

#endif
