/* What is said of a store that isn't open here. */
#include <stdio.h>

#include "store.h"

static wanzoche_answer write_declaration(store *s, const char *file, char *buffer, size_t size) {
    wanzoche_answer answer = {WANZOCHE_WRITTEN, 0};
    char *found = find_file(s, file) ? stored_declaration(s) : NULL;
    if (found == NULL) return s->trouble;
    answer.number = strlen(found) + 1;
    if (buffer == NULL || size <= answer.number) answer.code = WANZOCHE_TOO_SMALL;
    else snprintf(buffer, size, "%s\n", found);
    free(found);
    return answer;
}

wanzoche_answer wanzoche_store_declaration(const char *file, char *buffer, size_t size, char *message, size_t message_size) {
    wanzoche_answer answer;
    wanzoche_store *s = calloc(1, sizeof *s);
    int cancel;
    if (message != NULL && message_size > 0) message[0] = 0;
    if (s == NULL) return (wanzoche_answer){WANZOCHE_OUT_OF_MEMORY, 0};
    pthread_setcancelstate(PTHREAD_CANCEL_DISABLE, &cancel);
    s->folder = s->beside = -1;
    answer = write_declaration(s, file, buffer, size);
    if (message != NULL && message_size > 0) snprintf(message, message_size, "%s", s->message);
    take_apart(s);
    pthread_setcancelstate(cancel, &cancel);
    return answer;
}
