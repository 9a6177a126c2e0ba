/* A frame of numbered dots by the latest memory, as a plain loop with no checks: what `run latest` prints of a plan,
   to compare its output and its speed with. Arguments: the plan's seven numbers. */
#include <stdint.h>
#include <stdio.h>
#include <stdlib.h>

static char out[1 << 16];
static size_t held;

static void put(const char *text, size_t length) {
    if (held + length > sizeof out) {
        fwrite(out, 1, held, stdout);
        held = 0;
    }
    for (size_t i = 0; i < length; i++) out[held++] = text[i];
}

static void put_dot(int missing, uint16_t dot, char end) {
    char text[6];
    size_t at = 5;
    text[5] = end;
    if (missing) {
        text[--at] = '-';
    } else {
        do text[--at] = (char)('0' + dot % 10); while (dot /= 10);
    }
    put(text + at, 6 - at);
}

int main(int argc, char **argv) {
    if (argc != 8) return 2;
    uint32_t n[7];
    for (int i = 0; i < 7; i++) n[i] = (uint32_t)strtoul(argv[i + 1], 0, 10);
    uint32_t width = n[0], hblank = n[2], capacity = n[4], burst = n[5], latency = n[6];
    uint32_t end = n[3] + n[1] * (hblank + width), total = width * n[1];
    uint32_t taken = 0, x = 0, due = n[3] + hblank, head = 0, tail = 0;
    uint32_t requested = 0, arrived = 0, waited = 0, pending = 0;
    long first = -1;
    uint16_t *ring = calloc(capacity, sizeof *ring);
    for (uint32_t t = 0; t < end; t++) {
        if (pending && waited + 1 >= latency) {
            for (; arrived < requested; arrived++) {
                ring[tail] = (uint16_t)arrived;
                if (++tail == capacity) tail = 0;
            }
            pending = waited = 0;
        } else if (pending) {
            waited++;
        }
        if (t == due) {
            int missing = arrived <= taken;
            if (missing && first < 0) first = t;
            put_dot(missing, ring[head], x + 1 == width ? '\n' : ' ');
            if (++head == capacity) head = 0;
            taken++, x++, due++;
            if (x == width) x = 0, due += hblank;
        }
        if (!pending && requested < total) {
            uint32_t next = requested + burst < total ? requested + burst : total;
            if (next <= taken + capacity) requested = next, pending = 1, waited = 0;
        }
    }
    fwrite(out, 1, held, stdout);
    if (first < 0) puts("none missing");
    else printf("missing in tick %ld\n", first);
    return 0;
}
