/* Counts the copies that a program makes, for `speed/run copies`: loaded before the C library, it stands in for memcpy, to which the
   compiler turns every copy of more than a few words. At the end it writes how many copies were of a whole state (36,928 bytes), how
   many were of the grants at least (32,768), how many were shorter, and the bytes of all. */

typedef unsigned long u64;

long write(int fd, const void *buf, u64 n);

static u64 state, grants, shorter, bytes;

void *memcpy(void *to, const void *from, u64 n) {
    volatile unsigned char *t = to;
    const unsigned char *f = from;
    if (n >= 36928) state++;
    else if (n >= 32768) grants++;
    else shorter++;
    bytes += n;
    for (u64 i = 0; i < n; i++) t[i] = f[i];
    return to;
}

static void put(u64 x) {
    char digits[24], *at = digits + sizeof digits;
    *--at = ' ';
    do *--at = (char)('0' + x % 10); while (x /= 10);
    write(2, at, (u64)(digits + sizeof digits - at));
}

__attribute__((destructor)) static void report(void) {
    put(state);
    put(grants);
    put(shorter);
    put(bytes);
}
