// A whole program for a declaration, in several languages: it begins each operation once, side by side, and says of each that it ran, or
// why
// it didn't within a time limit. Nothing here knows of the page.

// How many seconds an operation waits, before the program says why it can't begin.
const LIMIT = 5;

// The lines of a declaration, without empty ones around it.
const trimmed = text => text.replace(/^\s*\n|\s+$/g, "").trimEnd();

const quoted = names => names.map(it => `"${it}"`).join(", ");

// A list that goes over several lines if it is long.
function inList(names, indent) {
  const line = quoted(names);
  return line.length < 80 ? line : `\n${names.map(it => `${indent}    "${it}",\n`).join("")}${indent}`;
}

const python = (text, names) => `"""Threads that keep to paths. It needs the Python package wanzoche."""
import threading

from wanzoche import Paths, Timeout

paths = Paths("""
${trimmed(text)}
""")


def work(operation):
    try:
        with paths(operation, timeout=${LIMIT}):
            print(operation + "\\n", end="")  # here is what the operation does
    except Timeout as late:
        print(f"{late}\\n", end="")


threads = [threading.Thread(target=work, args=[operation]) for operation in [${inList(names, "")}]]
for thread in threads:
    thread.start()
for thread in threads:
    thread.join()
`;

const rust = (text, names) => `//! Threads that keep to paths. It needs the crate wanzoche.
use std::thread;
use std::time::Duration;
use wanzoche::{Error, Paths};

const DECLARATION: &str = "
${trimmed(text)}
";

fn work(paths: &Paths, operation: &str) -> Result<(), Error> {
    let _guard = paths.enter_timeout(paths.op(operation)?, Duration::from_secs(${LIMIT}))?;
    println!("{}", operation); // here is what the operation does
    Ok(())
}

fn main() -> Result<(), Error> {
    let paths = Paths::open(DECLARATION)?;
    thread::scope(|scope| {
        for operation in [${inList(names, "        ")}] {
            let paths = &paths;
            scope.spawn(move || {
                if let Err(why) = work(paths, operation) {
                    println!("{}: {}", operation, why);
                }
            });
        }
    });
    Ok(())
}
`;

const c = (text, names) => `/* Threads that keep to paths. It needs the C library wanzoche. */
#include <wanzoche_monitor.h>

#include <stdio.h>
#include <string.h>

static const char DECLARATION[] =
${trimmed(text).split("\n").map(it => `    "${it.replace(/\t/g, "\\t")}\\n"`).join("\n")};
static const char *const OPERATION[] = {${inList(names, "")}};
enum { OPERATIONS = sizeof OPERATION / sizeof *OPERATION, LIMIT = ${LIMIT * 1000} };

static wanzoche_monitor paths;

static void *work(void *at) {
    uint32_t operation = *(const uint32_t *)at;
    wanzoche_answer answer = wanzoche_enter(&paths, operation, operation, LIMIT);
    if (answer.code != WANZOCHE_STARTED) {
        printf("%s: %s %llu\\n", OPERATION[operation], wanzoche_words(answer.code), (unsigned long long)answer.number);
        return NULL;
    }
    puts(OPERATION[operation]); /* here is what the operation does */
    wanzoche_leave(&paths, operation, answer.number);
    return NULL;
}

int main(void) {
    char why[WANZOCHE_MESSAGE];
    pthread_t threads[OPERATIONS];
    uint32_t numbers[OPERATIONS];
    if (wanzoche_monitor_open(&paths, DECLARATION, strlen(DECLARATION), 65536, why, sizeof why).code != WANZOCHE_OPENED) {
        fprintf(stderr, "the declaration: %s\\n", why);
        return 1;
    }
    for (uint32_t n = 0; n < OPERATIONS; n++) {
        numbers[n] = n;
        if (pthread_create(&threads[n], NULL, work, &numbers[n]) != 0) return 1;
    }
    for (uint32_t n = 0; n < OPERATIONS; n++) pthread_join(threads[n], NULL);
    wanzoche_monitor_close(&paths);
    return 0;
}
`;

// A line of a declaration has no full stop, so the one behind END can't end the text too early.
const shell = (text, names) => `#!/bin/sh
# Commands that keep to paths. It needs the command wanzoche, which the Python package brings.
set -eu
folder=$(mktemp -d)
trap 'rm -rf "$folder"' EXIT
cat > "$folder/paths" << 'END.'
${trimmed(text)}
END.

# Runs a command as an operation, when its turn has come.
as() {
    operation=$1
    shift
    wanzoche exec --store "$folder/log" --declaration "$folder/paths" --timeout ${2 * LIMIT} "$operation" -- "$@" ||
        echo "$operation: not admitted within ${2 * LIMIT} seconds, or its command failed"
}

# Behind its name stands what an operation does.
${names.map(it => `as ${it} echo ${it} &`).join("\n")}
wait
`;

const javascript = (text, names) => `// Tasks that keep to paths. It needs the package wanzoche.
import { Paths } from "wanzoche";

const paths = new Paths(\`
${trimmed(text)}
\`);

async function work(operation) {
  try {
    await paths.run(operation, async () => {
      console.log(operation); // here is what the operation does
    }, { timeout: ${LIMIT * 1000} });
  } catch (why) {
    console.log(String(why));
  }
}

await Promise.all([${inList(names, "")}].map(work));
`;

const namesOfAll = ({ operations }) => operations.map(it => it.name);

// The languages: { name, file, run, program }, a program for the text of a declaration and what was read of it.
export const copies = {
  python: { name: "Python", file: "paths.py", run: "python3 paths.py", program: (text, its) => python(text, namesOfAll(its)) },
  rust: { name: "Rust", file: "src/main.rs", run: "cargo run", program: (text, its) => rust(text, namesOfAll(its)) },
  c: { name: "C", file: "paths.c", run: "cc paths.c $(pkg-config --cflags --libs wanzoche) -lpthread && ./a.out",
    program: (text, its) => c(text, namesOfAll(its)) },
  javascript: { name: "JavaScript", file: "paths.mjs", run: "node paths.mjs", program: (text, its) => javascript(text, namesOfAll(its)) },
  shell: { name: "Shell", file: "paths.sh", run: "sh paths.sh", program: (text, its) => shell(text, namesOfAll(its)) },
};
