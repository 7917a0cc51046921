/* Numbers in words. Each is false for what isn't one. */
#include <ctype.h>
#include <errno.h>
#include <limits.h>
#include <math.h>
#include <stdlib.h>
#include <string.h>

#include "command.h"

static bool has_only(const char *text, const char *signs) {
    return text[strspn(text, signs)] == 0;
}

/* Any number of seconds, also `inf` and `nan`. */
bool read_seconds(const char *text, double *seconds) {
    char *end;
    *seconds = strtod(text, &end);
    while (isspace((unsigned char)*end)) end++;
    return end != text && *end == 0 && (has_only(text, "0123456789+-.eE \t\n") || !isfinite(*seconds));
}

/* Whether a number of seconds is a limit of time. */
bool is_limit(double seconds) {
    return !isnan(seconds) || fails("a limit of time is None or a number of seconds, not nan");
}

bool read_whole(const char *text, int *number) {
    char *end;
    long found;
    errno = 0;
    found = strtol(text, &end, 10);
    *number = (int)found;
    return end != text && *end == 0 && errno == 0 && found >= INT_MIN && found <= INT_MAX;
}

/* As `90s`, `15m`, `23h` or `7d`: seconds. */
bool read_duration(const char *text, int64_t *seconds) {
    static const char units[] = "smhd";
    static const int64_t lengths[] = {1, 60, 3600, 86400};
    size_t digits = strspn(text, "0123456789");
    const char *unit = digits == 0 || text[digits] == 0 ? NULL : strchr(units, text[digits]);
    if (digits > 9 || text[0] == '0' || unit == NULL || text[digits + 1] != 0) return false;
    *seconds = strtoll(text, NULL, 10) * lengths[unit - units];
    return true;
}

/* A number, or several words of which the last is one, as `process 3`. */
bool read_worker(const char *text, uint32_t *worker) {
    size_t length = strlen(text), begin;
    unsigned long long number;
    while (length > 0 && isspace((unsigned char)text[length - 1])) length--;
    for (begin = length; begin > 0 && !isspace((unsigned char)text[begin - 1]);) begin--;
    if (begin == length || strspn(text + begin, "0123456789") != length - begin) return false;
    errno = 0;
    number = strtoull(text + begin, NULL, 10);
    *worker = (uint32_t)number;
    return number <= UINT32_MAX && errno == 0;
}

/* A word as messages show it: in quotation marks, and without signs that a terminal would act on. */
void add_quoted(struct text *text, const char *word) {
    char mark = strchr(word, '\'') != NULL && strchr(word, '"') == NULL ? '"' : '\'';
    add(text, "%c", mark);
    for (; *word != 0; word++) {
        if (*word == '\\' || *word == mark) add(text, "\\%c", *word);
        else if (*word == '\n') add(text, "\\n");
        else if ((unsigned char)*word < ' ' || *word == 127) add(text, "\\x%02x", (unsigned char)*word);
        else add(text, "%c", *word);
    }
    add(text, "%c", mark);
}
