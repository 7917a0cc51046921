/* Standard streams, which may be closed, full, or a pipe that nobody reads any more. */
#include <errno.h>
#include <fcntl.h>
#include <stdarg.h>
#include <stdio.h>
#include <stdlib.h>
#include <string.h>
#include <unistd.h>

#include "command.h"

static bool was_closed[3];

/* A standard stream that is closed is taken, so that nothing else becomes it. A command that is run gets it closed, as it was. */
void take_closed_streams(void) {
    for (int stream = 0; stream < 3; stream++) {
        if (fcntl(stream, F_GETFD) >= 0) continue;
        was_closed[stream] = true;
        if (open("/dev/null", O_RDWR | O_CLOEXEC) != stream) _Exit(IS_OWN_FAULT); /* it is the lowest that is free */
    }
}

/* Whether a standard stream was open when the program began. */
bool is_open_stream(int stream) {
    return !was_closed[stream];
}

/* Writes all of it, however much one write takes. */
static bool write_all(int stream, const char *text, size_t length) {
    while (length > 0) {
        ssize_t written = write(stream, text, length);
        if (written < 0 && errno != EINTR) return false;
        if (written < 0) continue;
        text += written;
        length -= (size_t)written;
    }
    return true;
}

/* Writes a line to standard error. Where that can't be done nothing is said. */
void say(const char *format, ...) {
    char *told, *line;
    int length;
    va_list given;
    va_start(given, format);
    length = vasprintf(&told, format, given);
    va_end(given);
    if (length < 0) return;
    length = asprintf(&line, "wanzoche: %s\n", told);
    free(told);
    if (length < 0) return;
    if (!write_all(2, line, (size_t)length)) errno = 0;
    free(line);
}

/* Writes to standard output. Ends the program if whoever reads there has enough. */
bool write_out(const char *text, size_t length) {
    if (write_all(1, text, length)) return true;
    if (errno == EPIPE) exit(OF_SIGNAL + SIGPIPE);
    return fails_by_system("standard output");
}

bool write_text(const struct text *text) {
    return text->length == 0 || write_out(text->at, text->length);
}
