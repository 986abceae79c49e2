// The machine in plain C, to compare times and bytes with: same program file, script, image and report.
// It checks nothing: give it files that the proved program has accepted.
//
//     gcc -O3 -march=x86-64-v2 -o baseline baseline.c
//     ./baseline PROG SCRIPT IMAGE OUT

#include <stdint.h>
#include <stdio.h>
#include <stdlib.h>
#include <string.h>

typedef unsigned __int128 Value;
typedef struct { char name[17]; int width, base; uint32_t count; } Object;
typedef struct { char name[17]; int sources, results, bits, wide; const uint8_t *code; } Entry;

enum { DCC0, DCC1, T0, T1, T2, T3, C0, C1, D0, SPILL = 32 };

static int banks, rows, words, object_count, entry_count;
static Object objects[256];
static Entry entries[32];
static uint64_t *memory, aaps, aps, writes, reads;

static uint64_t *row_at(int bank, int cell) {
    return memory + ((size_t)bank * (rows + D0) + cell) * words;
}

// ---- row commands

// The cells that B0 to B15 raise; a complement is below 0. A 99 ends the list.
static const signed char lines[16][4] = {
    {T0, 99}, {T1, 99}, {T2, 99}, {T3, 99}, {DCC0, 99}, {~DCC0, 99}, {DCC1, 99}, {~DCC1, 99},
    {~DCC0, T0, 99}, {~DCC1, T1, 99}, {T2, T3, 99}, {T0, T3, 99},
    {T0, T1, T2, 99}, {T1, T2, T3, 99}, {DCC0, T1, T2, 99}, {DCC1, T0, T3, 99},
};

typedef struct { int b, cell; } Row; // a B address, or -1 and a cell

static void copy(uint64_t *to, const uint64_t *from, int inverted) {
    if (inverted)
        for (int i = 0; i < words; i++) to[i] = ~from[i];
    else if (to != from)
        memcpy(to, from, 8 * (size_t)words);
}

// The row that holds what an activation senses, and whether it holds the complement.
static uint64_t *activate(int bank, Row x, int *inverted) {
    *inverted = 0;
    if (x.b < 0) return row_at(bank, x.cell);
    const signed char *line = lines[x.b];
    if (x.b < 8) {
        *inverted = line[0] < 0;
        return row_at(bank, line[0] < 0 ? ~line[0] : line[0]);
    }
    uint64_t *restrict a = row_at(bank, line[0]);
    uint64_t *restrict b = row_at(bank, line[1]);
    uint64_t *restrict c = row_at(bank, line[2]);
    for (int i = 0; i < words; i++) a[i] = b[i] = c[i] = (a[i] & b[i]) | (c[i] & (a[i] | b[i]));
    return a;
}

static void aap(int bank, Row x, Row y) {
    int inverted;
    uint64_t *from = activate(bank, x, &inverted);
    aaps++;
    if (y.b < 0) {
        copy(row_at(bank, y.cell), from, inverted);
        return;
    }
    for (const signed char *line = lines[y.b]; *line != 99; line++) {
        uint64_t *to = row_at(bank, *line < 0 ? ~*line : *line);
        copy(to, from, inverted ^ (*line < 0));
        inverted = *line < 0;
        from = to;
    }
}

static void ap(int bank, Row x) {
    int inverted;
    activate(bank, x, &inverted);
    aps++;
}

// ---- microprograms

typedef struct { int n, bits, scratch, results[2], sources[4]; } Binding;

static Row bound(const uint8_t *row, const Binding *at, const int *registers) {
    int index = row[2] < 8 ? registers[row[2]] : 0;
    switch (row[0]) {
    case 0: return (Row){row[1], 0};
    case 1: return (Row){-1, C0 + row[1]};
    case 2: return (Row){-1, D0 + at->results[row[1]] + index};
    case 3: return (Row){-1, D0 + at->sources[row[1]] + index};
    case 4: return (Row){-1, D0 + at->scratch + row[1]};
    case 5: return (Row){-1, D0 + at->scratch + at->bits + row[1] * at->n + index};
    default: return (Row){-1, D0 + rows - SPILL + row[1]};
    }
}

static void run_entry(const uint8_t *code, int bank, const Binding *at) {
    int r[8] = {0};
    for (const uint8_t *op = code;; op += 8) {
        int k = op[2] | op[3] << 8;
        switch (op[0]) {
        case 0: return;
        case 1: r[op[1]] = k; break;
        case 2: r[op[1]] = at->n; break;
        case 3: r[op[1]] = at->n - 1; break;
        case 4: r[op[1]] = r[op[2]]; break;
        case 5: r[op[1]] += r[op[2]]; break;
        case 6: r[op[1]] += k; break;
        case 7: r[op[1]] -= k; break;
        case 8: if (r[op[1]]) op = code + 8 * k - 8; break;
        case 9: aap(bank, bound(op + 1, at, r), bound(op + 4, at, r)); break;
        case 10: ap(bank, bound(op + 1, at, r)); break;
        }
    }
}

// ---- objects

static Object *find(const char *name) {
    for (int i = 0; i < object_count; i++)
        if (!strcmp(objects[i].name, name)) return &objects[i];
    exit(3);
}

static int segments(uint32_t count) { return (count + 64 * words - 1) / (64 * words); }

static int free_rows(int size) {
    for (int base = 0; base + size <= rows - SPILL; base++) {
        int meets = 0;
        for (int i = 0; i < object_count; i++)
            meets |= objects[i].base < base + size && base < objects[i].base + objects[i].width;
        if (!meets) return base;
    }
    exit(4);
}

static void transpose64(uint64_t m[64]) {
    uint64_t mask = 0xffffffff;
    for (int step = 32; step; step >>= 1, mask ^= mask << step)
        for (int k = 0; k < 64; k = (k + step + 1) & ~step) {
            uint64_t crossed = ((m[k] >> step) ^ m[k + step]) & mask;
            m[k] ^= crossed << step;
            m[k + step] ^= crossed;
        }
}

static void set_columns(const Object *o, const Value *values) {
    for (int bank = 0; bank < segments(o->count); bank++, writes += o->width)
        for (int w = 0; w < words; w++)
            for (int half = 0; half < o->width; half += 64) {
                uint64_t block[64];
                for (int c = 0; c < 64; c++) {
                    size_t e = ((size_t)bank * words + w) * 64 + c;
                    block[c] = e < o->count ? (uint64_t)(values[e] >> half) : 0;
                }
                transpose64(block);
                for (int k = half; k < o->width && k < half + 64; k++)
                    row_at(bank, D0 + o->base + k)[w] = block[k - half];
            }
}

static void print_object(const Object *o) {
    for (int bank = 0; bank < segments(o->count); bank++, reads += o->width)
        for (int w = 0; w < words; w++) {
            uint64_t block[2][64] = {{0}};
            for (int k = 0; k < o->width; k++)
                block[k / 64][k % 64] = row_at(bank, D0 + o->base + k)[w];
            for (int half = 0; 64 * half < o->width; half++) transpose64(block[half]);
            for (int c = 0; c < 64; c++) {
                size_t e = ((size_t)bank * words + w) * 64 + c;
                if (e >= o->count) break;
                Value v = (Value)block[1][c] << 64 | block[0][c];
                char digits[40], *d = digits + 40;
                do *--d = '0' + (int)(v % 10);
                while (v /= 10);
                putchar(' ');
                fwrite(d, 1, digits + 40 - d, stdout);
            }
        }
}

// ---- scripts

static char *at; // what is left of the script

static int next_word(char *word) { // 0 at the end of the line
    while (*at == ' ' || *at == ',' || *at == '\t' || *at == '\r') at++;
    if (*at == '#') at += strcspn(at, "\n");
    size_t n = strcspn(at, " ,\t\r\n#");
    if (word) memcpy(word, at, n), word[n] = 0;
    at += n;
    return n > 0;
}

static Value next_number(void) {
    Value v = 0;
    while (*at == ' ' || *at == ',') at++;
    for (; *at >= '0' && *at <= '9'; at++) v = 10 * v + (*at - '0');
    return v;
}

static void init_object(void) {
    Object o = {0};
    next_word(o.name);
    o.count = next_number();
    o.width = next_number();
    o.base = free_rows(o.width);
    objects[object_count++] = o;
    for (int bank = 0; bank < segments(o.count); bank++)
        for (int k = 0; k < o.width; k++) aap(bank, (Row){-1, C0}, (Row){-1, D0 + o.base + k});
}

static void fill(void) {
    char name[64];
    next_word(name);
    Object *o = find(name);
    Value v = next_number();
    for (int bank = 0; bank < segments(o->count); bank++)
        for (int k = 0; k < o->width; k++)
            aap(bank, (Row){-1, C0 + (int)(v >> k & 1)}, (Row){-1, D0 + o->base + k});
}

static void load(void) {
    char name[64];
    next_word(name);
    Object *o = find(name);
    Value *values = calloc(o->count, sizeof *values);
    for (uint32_t e = 0; e < o->count; e++) values[e] = next_number();
    set_columns(o, values);
    free(values);
}

static void bbop(const char *op) {
    const Entry *e = entries;
    while (strcmp(e->name, op)) e++;
    Binding b = {.bits = e->bits};
    char word[64];
    uint32_t count = 0;
    for (int i = 0; i < e->results + e->sources; i++) {
        next_word(word);
        Object *o = find(word);
        if (i < e->results) b.results[i] = o->base, count = o->count;
        else b.sources[i - e->results] = o->base;
    }
    next_number();
    b.n = next_number();
    b.scratch = free_rows(e->bits + b.n * e->wide);
    for (int bank = 0; bank < segments(count); bank++) run_entry(e->code, bank, &b);
}

static void print(void) {
    char name[64];
    next_word(name);
    printf(" %s:", name);
    print_object(find(name));
}

static void release(void) {
    char name[64];
    next_word(name);
    Object *o = find(name);
    memmove(o, o + 1, (objects + --object_count - o) * sizeof *o);
}

static void run_script(void) {
    char word[64];
    for (int number = 1; *at; at += *at == '\n') {
        if (!next_word(word)) continue;
        uint64_t aaps_before = aaps, aps_before = aps;
        printf("%d", number++);
        if (!strcmp(word, "print")) print();
        else if (!strcmp(word, "bbop_trsp_init")) init_object();
        else if (!strcmp(word, "fill")) fill();
        else if (!strcmp(word, "load")) load();
        else if (!strcmp(word, "free")) release();
        else if (!strncmp(word, "bbop_", 5)) bbop(word + 5);
        if (strcmp(word, "print"))
            printf(" ok aap=%lu ap=%lu", aaps - aaps_before, aps - aps_before);
        putchar('\n');
        at += strcspn(at, "\n");
    }
}

// ---- files

static uint8_t *read_file(const char *name) {
    FILE *f = fopen(name, "rb");
    if (!f) exit(2);
    fseek(f, 0, SEEK_END);
    size_t size = ftell(f);
    rewind(f);
    uint8_t *bytes = malloc(size + 1);
    if (fread(bytes, 1, size, f) != size) exit(2);
    bytes[size] = 0;
    fclose(f);
    return bytes;
}

static int half(const uint8_t *p) { return p[0] | p[1] << 8; }

static void read_program(const uint8_t *file) {
    entry_count = half(file + 6);
    for (int i = 0; i < entry_count; i++) {
        const uint8_t *p = file + 8 + 27 * i;
        uint32_t start;
        memcpy(&start, p + 21, 4);
        Entry *e = &entries[i];
        memcpy(e->name, p + 1, 16);
        e->sources = p[17];
        e->results = 1 + (p[18] >> 5 & 1);
        e->bits = p[19];
        e->wide = p[20];
        e->code = file + 8 + 27 * entry_count + 8 * (size_t)start;
    }
}

static void read_image(const uint8_t *file) {
    banks = half(file + 6), rows = half(file + 8), words = half(file + 10);
    object_count = half(file + 12);
    for (int i = 0; i < object_count; i++) {
        const uint8_t *p = file + 14 + 24 * i;
        memcpy(objects[i].name, p + 1, 16);
        objects[i].width = p[17];
        objects[i].base = half(p + 18);
        memcpy(&objects[i].count, p + 20, 4);
    }
    const uint8_t *bits = file + 14 + 24 * object_count;
    size_t size = 8 * (size_t)rows * words;
    memory = calloc((size_t)banks * (rows + D0) * words, 8);
    for (int bank = 0; bank < banks; bank++, bits += size, writes += rows) {
        memset(row_at(bank, C1), 255, 8 * (size_t)words);
        memcpy(row_at(bank, D0), bits, size);
    }
}

static void write_image(const char *name, const uint8_t *head) {
    FILE *f = fopen(name, "wb");
    if (!f) exit(3);
    fwrite(head, 1, 12, f);
    fwrite(&object_count, 1, 2, f);
    for (int i = 0; i < object_count; i++) {
        uint8_t p[24] = {(uint8_t)strlen(objects[i].name)};
        memcpy(p + 1, objects[i].name, 16);
        p[17] = objects[i].width;
        memcpy(p + 18, &objects[i].base, 2);
        memcpy(p + 20, &objects[i].count, 4);
        fwrite(p, 1, 24, f);
    }
    for (int bank = 0; bank < banks; bank++, reads += rows)
        fwrite(row_at(bank, D0), 8, (size_t)rows * words, f);
    fclose(f);
}

int main(int count, char **args) {
    if (count != 5) return 1;
    setvbuf(stdout, NULL, _IOFBF, 1 << 20);
    read_program(read_file(args[1]));
    at = (char *)read_file(args[2]);
    const uint8_t *image = read_file(args[3]);
    read_image(image);
    run_script();
    write_image(args[4], image);
    printf("total aap=%lu ap=%lu writes=%lu reads=%lu refused=0\n", aaps, aps, writes, reads);
    return 0;
}
