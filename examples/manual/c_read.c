/* C that is read as clang prints it at -O0. */
typedef unsigned char u8;
typedef unsigned int u32;
typedef unsigned long u64;

enum kind { SMALL, LARGE };
struct point { int x, y; };
union word { u32 whole; u8 bytes[4]; };
struct __attribute__((packed)) header { u8 kind; u32 length; };

static const char path[] = "a\\b";
static const u64 squares[2][3] = { { 0, 1, 4 }, { 9, 16, 25 } };
static struct point corner = { 3, 4 };

extern void *memcpy(void *to, const void *from, u64 length);
extern void *memset(void *to, int byte, u64 length);

static int add(int a, int b) { return a + b; }
static int sub(int a, int b) { return a - b; }
static int (*const operators[])(int, int) = { add, sub };

int backslash(void) { return path[1]; }
u64 square(u64 row, u64 column) { return squares[row][column]; }
int apply(u32 which, int a, int b) { return operators[which & 1](a, b); }
int distance(struct point p) { struct point q = corner; q.x -= p.x; q.y -= p.y; return q.x * q.x + q.y * q.y; }
u32 third_byte(u32 n) { union word w; w.whole = n; return w.bytes[2]; }
u64 header_size(void) { struct header h[2]; return (u64)((u8 *)&h[1].length - (u8 *)h); }
_Bool is_large(enum kind kind) { return kind == LARGE; }
int absolute(int n) { return __builtin_abs(n); }
int counted(void) { static int calls; return ++calls; }

int classify(int n) {
    switch (n) {
    case 1: return 10;
    case 2 ... 4: return 20;
    default: return n < 0 ? -1 : 0;
    }
}

u32 filled(u32 byte) {
    u32 words[4], sum = 0, i = 0;
    memset(words, (int)byte, sizeof words);
    memcpy(&words[2], words, 2 * sizeof words[0]);
    do sum += words[i]; while (++i < 4);
    return sum;
}

int first_zero(const u8 *bytes, int length) {
    for (int i = 0; i < length; i++) {
        if (bytes[i]) continue;
        goto found;
    found:
        return i;
    }
    return -1;
}
