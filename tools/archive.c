/* Calls each function of liboddrafisk.a for x86-64 on a stack of its own, painted before, and prints how many bytes of
 * it were used: `NAME BYTES`, a line a function, the return address among them. Standard input is a log. Each of its
 * batches is checked and read in both modes, as a whole and cut off, with tables and without, measured and written
 * again, and converted, with an output that is long enough and with one that is not; and so are a keyed marker and a
 * bare one. It is compiled by tools/archive, without a C library: memcpy and memset are those below, and use no stack
 * but for their return address. */
typedef unsigned char byte;
typedef __INT64_TYPE__ number;
typedef __UINT64_TYPE__ word;

/* All parameters are words, of which x86-64 passes six in registers. */
enum { WORDS = 12, STACK = 1 << 14, PAINT = 0xA5, MOST = 1 << 18, ROWS = 1 << 14 };

#define EACH(F) F(check) F(read) F(measure) F(write) F(is_canonical) F(convert) F(record_time) F(crc32c) F(version)
#define DECLARED(name) void oddrafisk_##name(void);
#define PLACED(name) AT_##name,
#define NAMED(name) "oddrafisk_" #name,
EACH(DECLARED)
enum { EACH(PLACED) FUNCTIONS };
static const char *const names[] = {EACH(NAMED)};

static byte stacks[FUNCTIONS][STACK] __attribute__((aligned(16)));
static byte log[MOST], output[MOST];
/* An abort with all fields 0 as it is written, and in the bare form. */
static const byte keyed[72] = {[11] = 60, [16] = 2, [17] = 0xEC, [18] = 0xE5, [19] = 0x1F, [20] = 0xAE,
                               [22] = 32, [60] = 1, [61] = 0x14, [65] = 8, [70] = 1};
static const byte bare[65] = {[11] = 53, [16] = 2, [17] = 0x4E, [18] = 0x40, [19] = 0xA2, [20] = 0x22,
                              [22] = 32, [60] = 1};
static number records[8 * ROWS], headers[4 * ROWS], batch[16], answer[16];

/* Calls a function on the stack that ends at `top`, which is a multiple of 16. Six words lie on it before the call. */
word on_stack(void (*function)(void), const word words[WORDS], byte *top);
__asm__("on_stack: push %rbp; mov %rsp, %rbp; mov %rdx, %rsp; mov %rdi, %rax; mov %rsi, %r10;"
        "push 88(%r10); push 80(%r10); push 72(%r10); push 64(%r10); push 56(%r10); push 48(%r10);"
        "mov (%r10), %rdi; mov 8(%r10), %rsi; mov 16(%r10), %rdx; mov 24(%r10), %rcx; mov 32(%r10), %r8;"
        "mov 40(%r10), %r9; call *%rax; mov %rbp, %rsp; pop %rbp; ret");
#define CALL(name, ...) on_stack(oddrafisk_##name, (word[WORDS]){__VA_ARGS__}, stacks[AT_##name] + STACK)

__asm__(".globl _start; _start: call run; mov %eax, %edi; mov $60, %eax; syscall");

void *memcpy(void *to, const void *from, word count) {
    void *start = to;
    __asm__ volatile("rep movsb" : "+D"(to), "+S"(from), "+c"(count) : : "memory");
    return start;
}

void *memset(void *to, int value, word count) {
    void *start = to;
    __asm__ volatile("rep stosb" : "+D"(to), "+c"(count) : "a"(value) : "memory");
    return start;
}

static number system_call(word which, word file, const void *bytes, word count) {
    number result;
    __asm__ volatile("syscall" : "=a"(result) : "a"(which), "D"(file), "S"(bytes), "d"(count) : "rcx", "r11", "memory");
    return result;
}

static word read_log(void) {
    word count = 0;
    for (number more; (more = system_call(0, 0, log + count, MOST - count)) > 0;) count += (word)more;
    return count;
}

/* The first `count` bytes, which are no whole batch. */
static void cut_off(word mode, const byte *bytes, word count) {
    CALL(check, mode, (word)bytes, count, (word)answer);
    CALL(read, mode, (word)bytes, count, (word)records, 8 * ROWS, (word)headers, 4 * ROWS, (word)answer);
    CALL(is_canonical, mode, (word)bytes, count);
    CALL(convert, (word)bytes, count, (word)output, MOST, (word)answer);
    CALL(crc32c, (word)bytes, count);
}

/* Converts the batch that the bytes begin with: how many bytes are given for it, or 0 where it is none. */
static word converted(const byte *bytes, word count) {
    if (CALL(convert, (word)bytes, count, (word)output, MOST, (word)answer)) return 0;
    word given = (word)answer[1];
    CALL(convert, (word)bytes, count, (word)output, given - 1, (word)answer);
    return given;
}

/* Reads the batch that the bytes begin with, and writes it again: how many bytes it has, or 0 where it is none. */
static word whole(word mode, const byte *bytes, word count) {
    CALL(check, mode, (word)bytes, count, (word)answer);
    CALL(read, mode, (word)bytes, count, (word)records, 0, (word)headers, 0, (word)answer);
    if (CALL(read, mode, (word)bytes, count, (word)records, 8 * ROWS, (word)headers, 4 * ROWS, (word)batch)) return 0;
    word size = (word)batch[13];
    CALL(is_canonical, mode, (word)bytes, size);
    CALL(crc32c, (word)bytes, size);
    CALL(measure, mode, (word)batch, 0, (word)records, 8 * ROWS, (word)headers, 4 * ROWS, (word)bytes, count,
         (word)answer);
    for (word room = size; room + 2 > size; room--)
        CALL(write, mode, (word)batch, 0, (word)records, 8 * ROWS, (word)headers, 4 * ROWS, (word)bytes, count,
             (word)output, room, (word)answer);
    for (number row = 0; row < batch[11]; row++)
        CALL(record_time, (word)batch[8], (word)batch[3], (word)batch[4], (word)records[8 * row], (word)answer);
    return size;
}

/* The same with every beginning of it, or the more of them the shorter they are. */
static word in_parts(word mode, const byte *bytes, word count) {
    word size = whole(mode, bytes, count);
    for (word part = 0; part < size; part += 1 + part / 16) cut_off(mode, bytes, part);
    return size;
}

/* The bytes from the first that is not painted on, without the six words of the call. */
static void print_used(int which) {
    byte digits[8];
    word used = STACK - 48, at = sizeof digits, length = 0;
    for (word from = 0; used && stacks[which][from] == PAINT; from++) used--;
    digits[--at] = '\n';
    do digits[--at] = (byte)('0' + used % 10);
    while (used /= 10);
    digits[--at] = ' ';
    while (names[which][length]) length++;
    system_call(1, 1, names[which], length);
    system_call(1, 1, digits + at, sizeof digits - at);
}

/* 0 where the log is read to its end, and converted to as many bytes, by the keyed mode, 1, and so is the keyed marker;
 * and where the bare marker is refused by both modes and converted to a keyed one. */
int run(void) {
    word count = read_log(), place = 0, size = 1, given = 0;
    memset(stacks, PAINT, sizeof stacks);
    CALL(version, 0);
    for (; place < count && size; place += size) {
        in_parts(0, log + place, count - place);
        size = in_parts(1, log + place, count - place);
        given += converted(log + place, count - place);
    }
    word marker = in_parts(1, keyed, sizeof keyed);
    word none = in_parts(0, bare, sizeof bare) + in_parts(1, bare, sizeof bare), becomes = converted(bare, sizeof bare);
    for (int which = 0; which < FUNCTIONS; which++) print_used(which);
    int read = place == count && count && given == count && marker == sizeof keyed;
    return read && !none && becomes == sizeof keyed ? 0 : 1;
}
