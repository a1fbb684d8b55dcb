/* What a copy can't do without: reads standard input, writes it to standard output, and writes two hex digits of log
   for each byte to standard error, in pieces of 1,340 bytes a line. */
#include <stdlib.h>
#include <unistd.h>

enum { CHUNK = 262144, LINE = 1340 };

static unsigned char in[CHUNK];
static char log_text[2 * CHUNK + CHUNK / LINE + 2];

static void put(int fd, const void *bytes, size_t length) {
    const char *at = bytes;
    while (length > 0) {
        ssize_t count = write(fd, at, length);
        if (count <= 0) exit(1);
        at += count;
        length -= (size_t)count;
    }
}

int main(void) {
    static const char digits[] = "0123456789abcdef";
    ssize_t count;
    while ((count = read(0, in, CHUNK)) > 0) {
        size_t used = 0;
        for (ssize_t i = 0; i < count; i++) {
            log_text[used++] = digits[in[i] >> 4];
            log_text[used++] = digits[in[i] & 15];
            if (i % LINE == LINE - 1) log_text[used++] = '\n';
        }
        put(2, log_text, used);
        put(1, in, (size_t)count);
    }
    return count < 0;
}
