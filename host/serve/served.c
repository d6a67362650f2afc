/* The library's five calls, made by a process that serves them (serve.c): for programs that are compiled for another machine than the
 * library is, as those with sanitizers on Arm. SERVE is the path of that process; it is started at the first call, and ends with this one. */
#define _GNU_SOURCE
#include <fcntl.h>
#include <spawn.h>
#include <stdio.h>
#include <stdlib.h>
#include <unistd.h>

#include "practice.h"

/* What is read has to, what is lent has both; the bytes of a part that is only read are never written. */
typedef struct {
    const void *given;
    void *lent;
    size_t length;
} part;

#define GIVEN(name) {name, NULL, name##_len}
#define LENT(name) {name, name, name##_len}
#define COUNT(parts) (sizeof(parts) / sizeof *(parts))

static FILE *calls, *results;

static void stop(const char *why)
{
    fprintf(stderr, "served: %s\n", why);
    abort();
}

static void start(void)
{
    int to[2], from[2];
    pid_t process;
    char *arguments[] = {SERVE, NULL};
    posix_spawn_file_actions_t actions;
    if (pipe2(to, O_CLOEXEC) != 0 || pipe2(from, O_CLOEXEC) != 0 || posix_spawn_file_actions_init(&actions) != 0)
        stop("no pipe to the library's process");
    posix_spawn_file_actions_adddup2(&actions, to[0], STDIN_FILENO);
    posix_spawn_file_actions_adddup2(&actions, from[1], STDOUT_FILENO);
    if (posix_spawn(&process, SERVE, &actions, NULL, arguments, environ) != 0)
        stop(SERVE " cannot be started");
    posix_spawn_file_actions_destroy(&actions);
    close(to[0]);
    close(from[1]);
    calls = fdopen(to[1], "wb");
    results = fdopen(from[0], "rb");
}

static void put_number(uint32_t number)
{
    for (int shift = 24; shift >= 0; shift -= 8)
        putc((int)(number >> shift & 0xFF), calls);
}

static uint64_t read_number(int bytes)
{
    uint64_t number = 0;
    while (bytes-- > 0)
        number = number << 8 | (uint8_t)getc(results);
    return number;
}

/* The result, in this many bytes. */
static uint64_t call(char letter, const part *parts, size_t count, int bytes)
{
    if (!calls)
        start();
    putc(letter, calls);
    for (size_t at = 0; at < count; at++) {
        put_number((uint32_t)parts[at].length);
        fwrite(parts[at].given, 1, parts[at].length, calls);
    }
    fflush(calls);
    uint64_t result = read_number(bytes);
    for (size_t at = 0; at < count; at++)
        if (parts[at].lent && fread(parts[at].lent, 1, parts[at].length, results) != parts[at].length)
            stop("the library's process broke off");
    if (feof(results) || ferror(results))
        stop("the library's process is gone");
    return result;
}

static practice_result unpacked(uint64_t result)
{
    return (practice_result){(uint8_t)(result >> 56), (uint8_t)(result >> 48), (uint16_t)(result >> 32), (uint32_t)result};
}

practice_result practice_ask(const uint8_t *image, size_t image_len, const uint8_t *request, size_t request_len, const uint8_t *draw,
                             size_t draw_len, uint8_t *questions, size_t questions_len)
{
    const part parts[] = {GIVEN(image), GIVEN(request), GIVEN(draw), LENT(questions)};
    return unpacked(call('A', parts, COUNT(parts), 8));
}

practice_result practice_settle(const uint8_t *image, size_t image_len, const uint8_t *request, size_t request_len, const uint8_t *draw,
                                size_t draw_len, const uint8_t *answers, size_t answers_len, uint8_t *response, size_t response_len,
                                uint8_t *next, size_t next_len)
{
    const part parts[] = {GIVEN(image), GIVEN(request), GIVEN(draw), GIVEN(answers), LENT(response), LENT(next)};
    return unpacked(call('S', parts, COUNT(parts), 8));
}

practice_result practice_power_off(const uint8_t *image, size_t image_len, uint8_t *next, size_t next_len)
{
    const part parts[] = {GIVEN(image), LENT(next)};
    return unpacked(call('O', parts, COUNT(parts), 8));
}

uint32_t practice_personalise(const uint8_t *sheet, size_t sheet_len, uint8_t *image, size_t image_len)
{
    const part parts[] = {GIVEN(sheet), LENT(image)};
    return (uint32_t)call('P', parts, COUNT(parts), 4);
}

uint32_t practice_image_length(void)
{
    return (uint32_t)call('L', NULL, 0, 4);
}
