/* Reads the same lines as `concsh pages` and writes the same replies, by one write a reply: what the work costs at the least.
   Pages are kept as their one byte, snapshots as a number; it takes only well formed blocks of one session. */
#include <stdio.h>
#include <string.h>
#include <unistd.h>

static char in[1 << 16];
static unsigned char page[17];
static unsigned char copy[17];

static void reply(const char *text, size_t length) {
    if (write(1, text, length) != (ssize_t)length) _exit(4);
}

int main(void) {
    static char line[1 << 17];
    size_t held = 0;
    unsigned long commits = 0;
    ssize_t got;
    int wrote = 0;
    char text[64];
    while ((got = read(0, line + held, sizeof in)) > 0) {
        size_t end = held + (size_t)got, from = 0;
        char *stop;
        while ((stop = memchr(line + from, '\n', end - from)) != NULL) {
            char *at = line + from + 3;
            int p, b, n;
            if (*at == 'B') { memcpy(copy, page, sizeof page); wrote = 0; reply("1: ok\n", 6); }
            else if (*at == 'R') { sscanf(at, "READ %d", &p); n = sprintf(text, "1: byte %d\n", copy[p]); reply(text, (size_t)n); }
            else if (*at == 'W') { sscanf(at, "WRITE %d %d", &p, &b); copy[p] = (unsigned char)b; wrote = 1; reply("1: ok\n", 6); }
            else { if (wrote) { memcpy(page, copy, sizeof page); commits++; } n = sprintf(text, "1: commit %lu\n", commits); reply(text, (size_t)n); }
            from = (size_t)(stop - line) + 1;
        }
        held = end - from;
        memmove(line, line + from, held);
    }
    return 0;
}
