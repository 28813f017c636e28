// The entries of the first run time in C, for comparison: each routine is a function of its own, as there.
typedef unsigned char byte;
typedef unsigned int word;
typedef unsigned long long number;

#define HOST(name) __attribute__((import_module("ic0"), import_name(#name)))
#define ENTRY(name) __attribute__((export_name("canister_query " #name)))
#define ROUTINE __attribute__((noinline))

HOST(msg_arg_data_size) word msg_arg_data_size(void);
HOST(msg_arg_data_copy) void msg_arg_data_copy(byte *to, word from, word size);
HOST(msg_reply_data_append) void msg_reply_data_append(const byte *from, word size);
HOST(msg_reply) void msg_reply(void);
HOST(trap) void trap(const char *text, word size);

extern byte __heap_base;
static byte *heap_end = &__heap_base;

ROUTINE static byte *allocate(word size) {
    word spare = 0xffff0000u - (word)heap_end;
    if (size > spare) __builtin_trap();
    byte *place = heap_end;
    byte *end = place + size;
    word pages = ((word)end + 65535) >> 16;
    word there = __builtin_wasm_memory_size(0);
    if (pages > there && __builtin_wasm_memory_grow(0, pages - there) == (word)-1) __builtin_trap();
    heap_end = end;
    return place;
}

ROUTINE static byte *copy_bytes(const byte *from, word size) {
    byte *place = allocate(size);
    for (word k = 0; k < size; k++) place[k] = from[k];
    return place;
}

ROUTINE static word same_texts(const byte *a, const byte *b, word size) {
    for (word k = 0; k < size; k++)
        if (a[k] != b[k]) return 0;
    return 1;
}

ROUTINE static word order_texts(const byte *a, word size, const byte *b, word other) {
    for (word k = 0;; k++) {
        if (k == size) return k == other;
        if (k == other) return 2;
        if (a[k] < b[k]) return 0;
        if (b[k] < a[k]) return 2;
    }
}

ROUTINE static byte *write_digits(byte *to, number n) {
    do {
        *--to = '0' + n % 10;
        n /= 10;
    } while (n);
    return to;
}

static byte *argument(word *size) {
    *size = msg_arg_data_size();
    byte *place = allocate(*size);
    msg_arg_data_copy(place, 0, *size);
    return place;
}

static void reply_byte(word value) {
    byte *place = allocate(1);
    *place = value;
    msg_reply_data_append(place, 1);
    msg_reply();
}

ENTRY(digits) void digits(void) {
    byte *to = allocate(28) + 20;
    msg_arg_data_copy(to, 0, 8);
    byte *from = write_digits(to, *(number *)to);
    msg_reply_data_append(from, to - from);
    msg_reply();
}

ENTRY(copy) void copy(void) {
    word size;
    byte *place = argument(&size);
    msg_reply_data_append(copy_bytes(place, size), size);
    msg_reply();
}

ENTRY(same) void same(void) {
    word size;
    byte *place = argument(&size);
    reply_byte(same_texts(place, place + size / 2, size / 2));
}

ENTRY(order) void order(void) {
    word size;
    byte *place = argument(&size);
    if (size < 4) trap("argument too short", 18);
    word first = *(word *)place;
    if (first > size - 4) trap("argument too short", 18);
    reply_byte(order_texts(place + 4, first, place + 4 + first, size - 4 - first));
}
