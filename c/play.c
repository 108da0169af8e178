/*
 * Plays a call script through the library, on a head and on a weigh head side by side, and prints
 * what each line is answered, as the program replay does (docs/CALLS.md).
 */
#include "telling.h"

#include <errno.h>
#include <fcntl.h>
#include <inttypes.h>
#include <string.h>
#include <unistd.h>

enum status { STATUS_PLAYED = 0, STATUS_FAILED = 1, STATUS_ARGUMENTS = 2, STATUS_DIFFERENT = 3 };

static const char help[] =
    "Plays a call script through the C library and prints what each call answers.\n"
    "\n"
    "Usage: play [--over] [SCRIPT]\n"
    "\n"
    "  SCRIPT     the script, a file; none or - for standard input\n"
    "  --over     lend the watched nodes as places of any length (the functions plcn_.._over)\n"
    "  --help     print this\n"
    "  --version  print the library's version\n"
    "\n"
    "Each call is made on a head and on a weigh head. docs/CALLS.md has the lines of a script.\n"
    "\n"
    "Exit status: 0 where each line could be read and played, 1 where one could not or the file\n"
    "could not be read, 2 where the arguments are wrong, 3 where head and weigh head differed.\n";

/* What is read of a file, by lines. */
struct input {
    int file;
    size_t used, filled;
    char bytes[65536];
    char line[LINE_LONGEST + 1]; /* one more than a line may have, so that a longer one is seen */
    size_t length;
};

/* Reads on, where all bytes are used. What was printed is flushed before it is waited for more.
   Whether there are bytes; failed is set where they could not be read. */
static bool has_bytes(struct input *input, bool *failed)
{
    if (input->used < input->filled)
        return true;
    fflush(stdout);
    ssize_t count;
    do
        count = read(input->file, input->bytes, sizeof input->bytes);
    while (count < 0 && errno == EINTR);
    *failed = count < 0;
    input->used = 0;
    input->filled = count > 0 ? (size_t)count : 0;
    return count > 0;
}

/* Reads the next line, without its newline; false at the end. Of a line that is too long its first
   characters are kept. */
static bool next_line(struct input *input, bool *failed)
{
    input->length = 0;
    if (!has_bytes(input, failed))
        return false;
    do {
        const char *from = input->bytes + input->used;
        size_t left = input->filled - input->used, room = sizeof input->line - input->length;
        const char *end = memchr(from, '\n', left);
        size_t count = end ? (size_t)(end - from) : left;
        memcpy(input->line + input->length, from, count < room ? count : room);
        input->length += count < room ? count : room;
        input->used += count + (end ? 1 : 0);
        if (end)
            return true;
    } while (has_bytes(input, failed));
    return !*failed;
}

/* Prints what came of a line at its place, from 1. */
static void tell(enum played played, uint64_t place, const struct line *line,
                 const struct station *station, const struct answer *answer)
{
    switch (played) {
    case PLAYED_NOTHING: break;
    case PLAYED_UNREADABLE: printf("(unreadable %" PRIu64 ")\n", place); break;
    case PLAYED_ANSWER: tell_answer(stdout, line->kind, answer); break;
    case PLAYED_SHOW: tell_station(stdout, station); break;
    case PLAYED_WHY: tell_why(stdout, &station->head); break;
    }
}

/* Plays all lines. */
static enum status play(struct input *input, bool over)
{
    struct station station;
    struct line line;
    struct answer answer;
    enum status status = STATUS_PLAYED;
    bool failed = false;
    new_station(&station, over);
    for (uint64_t place = 1; next_line(input, &failed); place++) {
        const char *differ = NULL;
        read_line(input->line, input->length, &line);
        enum played played = play_line(&station, &line, &answer, &differ);
        tell(played, place, &line, &station, &answer);
        if (played == PLAYED_UNREADABLE)
            status = STATUS_FAILED;
        if (differ) {
            fflush(stdout);
            fprintf(stderr, "play: line %" PRIu64 ": head and weigh head differ in %s\n", place,
                    differ);
            return STATUS_DIFFERENT;
        }
    }
    if (failed) {
        fprintf(stderr, "play: %s; give a file of calls, or - for standard input\n",
                strerror(errno));
        return STATUS_FAILED;
    }
    return status;
}

/* Plays a file, or standard input. */
static enum status play_file(const char *path, bool over)
{
    static struct input input;
    input.file = STDIN_FILENO;
    if (strcmp(path, "-") != 0 && (input.file = open(path, O_RDONLY)) < 0) {
        fprintf(stderr, "play: %s: %s; give a file of calls, or - for standard input\n", path,
                strerror(errno));
        return STATUS_FAILED;
    }
    enum status status = play(&input, over);
    if (fflush(stdout) != 0 || ferror(stdout)) {
        fprintf(stderr, "play: what was printed could not be written: %s\n", strerror(errno));
        return STATUS_FAILED;
    }
    return status;
}

int main(int count, char **words)
{
    const char *path = NULL;
    bool over = false;
    for (int i = 1; i < count; i++) {
        if (strcmp(words[i], "--help") == 0) {
            fputs(help, stdout);
            return STATUS_PLAYED;
        } else if (strcmp(words[i], "--version") == 0) {
            uint32_t version = plcn_version();
            printf("play %" PRIu32 ".%" PRIu32 ".%" PRIu32 "\n", version / 10000,
                   version / 100 % 100, version % 100);
            return STATUS_PLAYED;
        } else if (strcmp(words[i], "--over") == 0) {
            over = true;
        } else if (path == NULL && (words[i][0] != '-' || words[i][1] == 0)) {
            path = words[i];
        } else {
            fprintf(stderr, "play: %s: not understood; play --help says what is\n", words[i]);
            return STATUS_ARGUMENTS;
        }
    }
    return (int)play_file(path ? path : "-", over);
}
