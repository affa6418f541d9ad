/* A plain checker to compare the sheet program with: it reads standard input and looks at the digits of each line by a byte table,
   and nothing else. It writes 00 or 08 for each line. */
#include <unistd.h>

static unsigned char good[256];
static unsigned char input[14336], output[43008];

int main(void) {
    for (int c = '0'; c <= '9'; c++) good[c] = 1;
    for (int c = 'a'; c <= 'f'; c++) good[c] = 1;
    unsigned long count = 0;
    unsigned char bad = 0;
    for (;;) {
        ssize_t got = read(0, input, sizeof input);
        if (got <= 0) break;
        unsigned long at = 0;
        for (ssize_t i = 0; i < got; i++) {
            unsigned char b = input[i];
            if (b == '\n') {
                output[at] = '0';
                output[at + 1] = (bad || count != 16) ? '8' : '0';
                output[at + 2] = '\n';
                at += 3;
                count = 0;
                bad = 0;
            } else {
                bad |= !good[b];
                count++;
            }
        }
        for (unsigned long done = 0; done < at;) {
            ssize_t put = write(1, output + done, at - done);
            if (put <= 0) return 0;
            done += put;
        }
    }
    if (count > 0) {
        unsigned char last[3] = {'0', (bad || count != 16) ? '8' : '0', '\n'};
        (void)!write(1, last, 3);
    }
    return 0;
}
