/* What the Python package does: its command takes the same words and does the same, and what isn't here, too. */
#include <errno.h>
#include <stdlib.h>
#include <string.h>
#include <unistd.h>

#include "command.h"

/* Behind it stand what wants the package, the status where it isn't there, and the words. No module comes from the folder in which it runs. */
static const char PROGRAM[] =
    "import sys\n"
    "sys.path = [each for each in sys.path if each]\n"
    "what, status = sys.argv.pop(1), int(sys.argv.pop(1))\n"
    "try:\n"
    "    from wanzoche._command import main\n"
    "except ImportError as error:\n"
    "    told = 'wanzoche: {} wants the Python package of Wanzoche, which {} does not have: {}\\n'\n"
    "    sys.stderr and sys.stderr.write(told.format(what, sys.executable, error))\n"
    "    sys.exit(status)\n"
    "sys.exit(main())\n";

/* Whether the store is in PostgreSQL. */
bool is_served(const struct given *given) {
    return given->store != NULL && (strncmp(given->store, "postgresql://", 13) == 0 || strncmp(given->store, "postgres://", 11) == 0);
}

/*
** Becomes the command of the package, with the same words behind the program's name;
** WANZOCHE_PYTHON names its Python. Returns only where there is none, with the status;
** this is said.
*/
int hand_to_python(char **words, const char *what, int status) {
    const char *python = getenv("WANZOCHE_PYTHON");
    struct text number = {NULL, 0, 0};
    size_t count = 0;
    char **all;
    while (words[count] != NULL) count++;
    all = take_memory(count + 6, sizeof *all);
    if (python == NULL || python[0] == 0) python = "python3";
    add(&number, "%d", status);
    memcpy(all, (const char *const[]){python, "-c", PROGRAM, what, number.at}, 5 * sizeof *all);
    memcpy(all + 5, words, count * sizeof *all);
    use_usual_signals();
    execvp(python, all);
    say("%s wants the Python package of Wanzoche, and %s can't be run: %s", what, python, strerror(errno));
    free(all);
    clear_text(&number);
    return status;
}
