// Tells how many bytes of memory a program takes at most between the lines of its standard error that begin with
// "ready" and with "join" or "answer", by a line "taken BYTES" before the second one. Peaks before the first don't
// count.
#define _GNU_SOURCE
#include <dlfcn.h>
#include <fcntl.h>
#include <stdio.h>
#include <string.h>
#include <unistd.h>

typedef ssize_t (*write_call)(int, const void *, size_t);

static write_call plain_write;
static long before;

// A number of /proc/self/status, in kB.
static long status(const char *name) {
    char text[4096];
    int file = open("/proc/self/status", O_RDONLY);
    ssize_t length = read(file, text, sizeof text - 1);
    close(file);
    if (length <= 0) return 0;
    text[length] = 0;
    const char *at = strstr(text, name);
    long kilobytes = 0;
    if (at) sscanf(at + strlen(name), "%ld", &kilobytes);
    return kilobytes;
}

// Whether the bytes begin so.
static int is(const void *bytes, size_t length, const char *start) {
    return length >= strlen(start) && !memcmp(bytes, start, strlen(start));
}

static void forget_peak(void) {
    int file = open("/proc/self/clear_refs", O_WRONLY);
    plain_write(file, "5", 1);
    close(file);
}

ssize_t write(int file, const void *bytes, size_t length) {
    if (!plain_write) plain_write = (write_call)dlsym(RTLD_NEXT, "write");
    if (file == 2 && (is(bytes, length, "join ") || is(bytes, length, "answer "))) {
        char line[64];
        int size = snprintf(line, sizeof line, "taken %ld\n", (status("VmHWM:") - before) * 1024);
        plain_write(2, line, size);
    }
    ssize_t wrote = plain_write(file, bytes, length);
    if (file == 2 && is(bytes, length, "ready")) {
        forget_peak();
        before = status("VmRSS:");
    }
    return wrote;
}
