"""Runs the built program and controls its outside: each open, read, write and close, and each request for memory.

A few lines of C replace the C library's functions of these names. They count the calls, write down the result of each, and
make those that are named fail or fall short. They need a C compiler; without one `compiler` is None.
"""

from __future__ import annotations

import os
import shutil
import subprocess
from dataclasses import dataclass
from pathlib import Path

TOP = Path(__file__).resolve().parent.parent
PATIENCE = 60  # seconds

# FAULTS has a fault for each stretch of calls, as `3-3 f 5;4-9 s 1;`: the third call fails with the error 5, and those
# from the fourth to the ninth are handed one byte at most. REFUSED is the first and the last request for memory that is
# refused. CALLS and REQUESTS name the files for what was called, and how often memory was requested.
SOURCE = r"""
#define _GNU_SOURCE
#include <dlfcn.h>
#include <errno.h>
#include <fcntl.h>
#include <stdarg.h>
#include <stdio.h>
#include <stdlib.h>
#include <string.h>
#include <sys/syscall.h>
#include <unistd.h>

#define NEXT(name, type) ((type)dlsym(RTLD_NEXT, name))

static unsigned long calls, requests, first = 1, last;
static int kept = -1;

/* What is to come of the next call: 'f' with an error, 's' with a number of bytes, or 0. */
static int fault(long *amount) {
    unsigned long from, to;
    char kind;
    calls++;
    for (const char *at = getenv("FAULTS"); at && *at; at = strchr(at, ';') + 1)
        if (sscanf(at, "%lu-%lu %c %ld;", &from, &to, &kind, amount) == 4 && from <= calls && calls <= to) return kind;
    return 0;
}

/* Writes down a call, with the bytes of its name in hexadecimal. */
static long done(const char *what, const char *name, long result) {
    char line[9000];
    int error = errno, length = snprintf(line, 60, "%s %ld ", what, result);
    for (; *name && length < 8990; name++) length += sprintf(line + length, "%02x", (unsigned char)*name);
    line[length++] = '\n';
    if (kept >= 0 && syscall(SYS_write, kept, line, length) != length) _exit(125);
    errno = error;
    return result;
}

static int opened(const char *next, int folder, const char *name, int flags, int mode) {
    long error;
    if (fault(&error) == 'f') {
        errno = (int)error;
        return (int)done("open", name, -1);
    }
    return (int)done("open", name, NEXT(next, int (*)(int, const char *, int, ...))(folder, name, flags, mode));
}

#define OPEN(function)                                     \
    int function(const char *name, int flags, ...) {       \
        va_list rest;                                      \
        va_start(rest, flags);                             \
        int mode = va_arg(rest, int);                      \
        va_end(rest);                                      \
        return opened("openat", AT_FDCWD, name, flags, mode); \
    }
OPEN(open)
OPEN(open64)

#define OPENAT(function)                                         \
    int function(int folder, const char *name, int flags, ...) { \
        va_list rest;                                            \
        va_start(rest, flags);                                   \
        int mode = va_arg(rest, int);                            \
        va_end(rest);                                            \
        return opened("openat", folder, name, flags, mode);      \
    }
OPENAT(openat)
OPENAT(openat64)

#define MOVE(function, type)                                                        \
    ssize_t function(int fd, type bytes, size_t count) {                            \
        long amount;                                                                \
        int kind = fault(&amount);                                                  \
        if (kind == 'f' || (kind == 's' && amount == 0)) {                          \
            errno = (int)amount;                                                    \
            return done(#function, "", kind == 'f' ? -1 : 0);                       \
        }                                                                           \
        if (kind == 's' && (size_t)amount < count) count = (size_t)amount;          \
        return done(#function, "", NEXT(#function, ssize_t (*)(int, type, size_t))(fd, bytes, count)); \
    }
MOVE(read, void *)
MOVE(write, const void *)

int close(int fd) {
    long error;
    int kind = fault(&error), result = NEXT("close", int (*)(int))(fd);
    if (kind == 'f') {
        errno = (int)error;
        result = -1;
    }
    return (int)done("close", "", result);
}

static int is_refused(void) {
    requests++;
    if (requests < first || requests > last) return 0;
    errno = ENOMEM;
    return 1;
}

void *malloc(size_t size) {
    return is_refused() ? NULL : NEXT("malloc", void *(*)(size_t))(size);
}

void *realloc(void *old, size_t size) {
    return is_refused() ? NULL : NEXT("realloc", void *(*)(void *, size_t))(old, size);
}

void *aligned_alloc(size_t alignment, size_t size) {
    return is_refused() ? NULL : NEXT("aligned_alloc", void *(*)(size_t, size_t))(alignment, size);
}

int posix_memalign(void **into, size_t alignment, size_t size) {
    return is_refused() ? ENOMEM : NEXT("posix_memalign", int (*)(void **, size_t, size_t))(into, alignment, size);
}

static int file_of(const char *variable) {
    const char *name = getenv(variable);
    return name ? (int)syscall(SYS_openat, AT_FDCWD, name, O_WRONLY | O_CREAT | O_TRUNC | O_CLOEXEC, 0600) : -1;
}

__attribute__((constructor)) static void begin(void) {
    const char *refused = getenv("REFUSED");
    kept = file_of("CALLS");
    calls = requests = 0;
    if (refused) sscanf(refused, "%lu-%lu", &first, &last);
}

__attribute__((destructor)) static void end(void) {
    char number[32];
    int length = snprintf(number, sizeof number, "%lu", requests), file = file_of("REQUESTS");
    if (file >= 0 && syscall(SYS_write, file, number, length) != length) _exit(125);
}
"""


@dataclass(frozen=True)
class Call:
    """A call that the program made: open, read, write or close, what it returned, and the name that was opened."""

    what: str
    result: int
    name: bytes = b""


@dataclass(frozen=True)
class Fault:
    """What is to come of the calls from the first to the last, counted from 1: an error, or so many bytes at most."""

    first: int
    last: int
    error: int | None = None
    most: int = 0

    def __str__(self) -> str:
        return f"{self.first}-{self.last} " + (f"s {self.most}" if self.error is None else f"f {self.error}")


@dataclass(frozen=True)
class Outcome:
    """What a run came to. A status below 0 is a signal."""

    status: int
    output: bytes


@dataclass(frozen=True)
class Run:
    """A run: what it came to, the calls that it made, and how many requests for memory."""

    outcome: Outcome
    calls: tuple[Call, ...]
    requests: int


def compiler() -> str | None:
    """A C compiler, if there is one."""
    return next((found for name in ("cc", "gcc", "clang") if (found := shutil.which(name))), None)


class Program:
    """The program, and a folder for the library that stands before the C library."""

    def __init__(self, program: Path, room: Path) -> None:
        self.program, self.room = program, room
        source, self.library = room / "outside.c", room / "outside.so"
        source.write_text(SOURCE, encoding="ascii")
        found = compiler()
        assert found is not None
        subprocess.run([found, "-shared", "-fPIC", "-O1", "-o", self.library, source, "-ldl"], check=True)

    def run(
        self,
        words: list[str | bytes],
        folder: Path,
        faults: tuple[Fault, ...] = (),
        refused: tuple[int, int] | None = None,
    ) -> Run:
        """Runs the program in a folder, with these faults and these requests for memory refused."""
        calls, requests = self.room / "calls", self.room / "requests"
        environment = {"LD_PRELOAD": str(self.library), "CALLS": str(calls), "REQUESTS": str(requests)}
        environment["FAULTS"] = "".join(f"{fault};" for fault in faults)
        if refused:
            environment["REFUSED"] = f"{refused[0]}-{refused[1]}"
        for file in (calls, requests):
            file.write_bytes(b"")
        ran = subprocess.run(
            [self.program, *words], cwd=folder, env=environment, capture_output=True, timeout=PATIENCE, check=False
        )
        made = []
        for line in calls.read_text(encoding="ascii").splitlines():
            what, result, name = line.split(" ")
            made.append(Call(what, int(result), bytes.fromhex(name)))
        return Run(Outcome(ran.returncode, ran.stdout), tuple(made), int(requests.read_bytes() or 0))


def shown(words: list[str | bytes]) -> str:
    """A command line, as it is told of."""
    return " ".join(os.path.basename(os.fsdecode(word)) or "''" for word in words)
