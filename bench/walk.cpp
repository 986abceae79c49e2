// The walk over right programs, plainly: for the speed of `optimise` beside it (bench/optimise.py --beside).
//
//     g++ -O3 -march=native -o walk walk.cpp; ./walk SECONDS < COMMANDS
//
// COMMANDS are numbers: the rows that are sources, the rows that are results, the other rows, how many commands, and for each
// its two addresses: 0 to 15 are B0 to B15, 16 and 17 C0 and C1, then the sources, results and other rows; -1 no second one.
// It keeps the values of all cells and rows after every command, under 512 assignments, as two bits: known to be 1, and to be 0.
// It prints the changes that it tried in a second, those that were right, and the fewest commands. Nothing is compared beyond
// the samples.
#include <chrono>
#include <cstdint>
#include <cstdio>
#include <cstdlib>
#include <vector>

using Mask = unsigned __int128;

constexpr int WORDS = 8;
constexpr int NONE = -1;
constexpr int C0 = 16;
constexpr int FIRST_ROW = 18;
constexpr int CELLS = 6;
constexpr int MOST_NEW = 32;

struct Value {
    uint64_t ones[WORDS], zeros[WORDS];
};
struct Command {
    int x, y;
    bool operator==(const Command &other) const { return x == other.x && y == other.y; }
};
struct Lines {
    int count;
    int cells[3];
    bool flips;  // the first line is an n-wordline
};

// T0 to T3 are the cells 0 to 3, DCC0 and DCC1 4 and 5
const Lines B[16] = {{1, {0}, false},       {1, {1}, false},       {1, {2}, false},       {1, {3}, false},
                     {1, {4}, false},       {1, {4}, true},        {1, {5}, false},       {1, {5}, true},
                     {2, {4, 0}, true},     {2, {5, 1}, true},     {2, {2, 3}, false},    {2, {0, 3}, false},
                     {3, {0, 1, 2}, false}, {3, {1, 2, 3}, false}, {3, {4, 1, 2}, false}, {3, {5, 0, 3}, false}};

int sources, results, others;
std::vector<Value> fixed;  // of C0, C1 and the sources
uint64_t seed = 1;

uint64_t word() {
    seed += 0x9E3779B97F4A7C15;
    uint64_t z = (seed ^ seed >> 30) * 0xBF58476D1CE4E5B9;
    z = (z ^ z >> 27) * 0x94D049BB133111EB;
    return z ^ z >> 31;
}
int below(int count) { return int((word() >> 32) * count >> 32); }

int first_own() { return FIRST_ROW + sources; }
int cell_of(int row) { return CELLS + row - first_own(); }
int cell_count() { return CELLS + results + others; }
Mask bit(int cell) { return Mask(1) << cell; }
Mask raised(int a) {
    if (a < C0) {
        Mask cells = 0;
        for (int k = 0; a >= 0 && k < B[a].count; k++) cells |= bit(B[a].cells[k]);
        return cells;
    }
    return a < first_own() ? 0 : bit(cell_of(a));
}
Mask reads(const Command &c) { return raised(c.x); }
Mask writes(const Command &c) { return (c.x < C0 && B[c.x].count == 3 ? raised(c.x) : 0) | raised(c.y); }

Value flipped(const Value &v, bool flips) {
    Value r = v;
    for (int k = 0; flips && k < WORDS; k++) r.ones[k] = v.zeros[k], r.zeros[k] = v.ones[k];
    return r;
}
bool differ(const Value &a, const Value &b) {
    uint64_t all = 0;
    for (int k = 0; k < WORDS; k++) all |= (a.ones[k] ^ b.ones[k]) | (a.zeros[k] ^ b.zeros[k]);
    return all != 0;
}
Value majority(const Value &a, const Value &b, const Value &c) {
    Value r;
    for (int k = 0; k < WORDS; k++) {
        r.ones[k] = (a.ones[k] & b.ones[k]) | (c.ones[k] & (a.ones[k] | b.ones[k]));
        r.zeros[k] = (a.zeros[k] & b.zeros[k]) | (c.zeros[k] & (a.zeros[k] | b.zeros[k]));
    }
    return r;
}

// The value of a cell: from `changed` where it differs, else from `base`.
const Value &held(int cell, const Value *base, const Value *changed, Mask differs) {
    return (differs >> cell & 1) ? changed[cell] : base[cell];
}
Value sense(const Command &c, const Value *base, const Value *changed, Mask differs) {
    if (c.x >= first_own()) return held(cell_of(c.x), base, changed, differs);
    if (c.x >= C0) return fixed[c.x - C0];
    const Lines &l = B[c.x];
    if (l.count == 1) return flipped(held(l.cells[0], base, changed, differs), l.flips);
    return majority(held(l.cells[0], base, changed, differs), held(l.cells[1], base, changed, differs),
                    held(l.cells[2], base, changed, differs));
}
void put(int a, const Value &v, Value *cells) {
    if (a == NONE) return;
    if (a >= C0) {
        cells[cell_of(a)] = v;
        return;
    }
    for (int k = 0; k < B[a].count; k++) cells[B[a].cells[k]] = flipped(v, k == 0 && B[a].flips);
}
void settle(const Command &c, const Value &v, Value *cells) {
    if (c.x < C0 && B[c.x].count == 3) put(c.x, v, cells);
    put(c.y, v, cells);
}

struct Program {
    std::vector<Command> commands;
    std::vector<std::vector<Value>> states;  // before each command, and at the end
    std::vector<Mask> live, last;            // cells that are read later; results that are not written later

    void run_from(size_t at) {
        states.resize(commands.size() + 1, std::vector<Value>(cell_count()));
        for (size_t k = at; k < commands.size(); k++) {
            states[k + 1] = states[k];
            settle(commands[k], sense(commands[k], states[k].data(), nullptr, 0), states[k + 1].data());
        }
        live.resize(commands.size() + 1);
        last.resize(commands.size() + 1);
        live.back() = last.back() = 0;
        for (int k = 0; k < results; k++) live.back() |= bit(CELLS + k), last.back() |= bit(CELLS + k);
        for (size_t k = commands.size(); k-- > 0;) {
            live[k] = (live[k + 1] & ~writes(commands[k])) | reads(commands[k]);
            last[k] = last[k + 1] & ~writes(commands[k]);
        }
    }
};

Value changed[128];

// Whether the results stay where `old` commands from `at` on are replaced by `count` others.
bool stays(const Program &p, int at, int old, const Command *fresh, int count) {
    const Value *base = p.states[at].data();
    Mask written = 0, touched = 0, differs = 0;
    for (int k = 0; k < count; k++) {
        settle(fresh[k], sense(fresh[k], base, changed, written), changed);
        written |= writes(fresh[k]);
    }
    for (int k = 0; k < old; k++) touched |= writes(p.commands[at + k]);
    touched |= written;
    for (int cell = 0; cell < cell_count(); cell++)
        if (touched >> cell & 1) {
            if (!(written >> cell & 1)) changed[cell] = base[cell];
            if (differ(changed[cell], p.states[at + old][cell])) differs |= bit(cell);
        }
    for (size_t k = at + old; differs & p.live[k]; k++) {
        if (differs & p.last[k]) return false;
        const Command &c = p.commands[k];
        Mask cells = writes(c);
        bool is_read = reads(c) & differs;
        if (is_read) settle(c, sense(c, p.states[k].data(), changed, differs), changed);
        differs &= ~cells;
        for (int cell = 0; is_read && cell < cell_count(); cell++)
            if ((cells >> cell & 1) && differ(changed[cell], p.states[k + 1][cell])) differs |= bit(cell);
    }
    return true;
}

int row_near(const Program &p, int at) {
    int kind = below(8), rows = FIRST_ROW - C0 + sources + results + others;
    if (kind < 2) return C0 + below(kind ? rows : 2);
    int place = at + below(25) - 12, size = int(p.commands.size());
    const Command &c = p.commands[place < 0 ? 0 : place >= size ? size - 1 : place];
    return c.y >= C0 && below(2) ? c.y : c.x >= C0 ? c.x : C0 + below(2);
}
int first(const Program &p, int at) { return below(10) < 7 ? (below(3) ? below(8) : 12 + below(4)) : row_near(p, at); }
int second(const Program &p, int at) {
    int kind = below(12), row = row_near(p, at);
    return kind == 0 ? NONE : kind < 3 && row >= first_own() ? row : below(16);
}
bool is_legal(const Command &c) { return (c.x >= C0 || B[c.x].count != 2) && (c.y < C0 || c.y >= first_own()); }

struct Change {
    int at, old, count;
    Command fresh[MOST_NEW];
};

// Draws a change: another address, a command elsewhere, one left out, two near each other, or one for two.
bool draw(const Program &p, Change &d) {
    int size = int(p.commands.size()), kind = below(12);
    d.at = below(size);
    d.old = d.count = kind < 6 ? 1 : kind < 9 ? 2 + below(4) : kind == 9 ? 1 : kind == 10 ? 2 + below(5) : 2 + below(2);
    if (d.at + d.old > size) return false;
    for (int k = 0; k < d.old; k++) d.fresh[k] = p.commands[d.at + k];
    if (kind < 4) d.fresh[0].x = first(p, d.at);
    if (kind == 4 || kind == 5) d.fresh[0].y = second(p, d.at);
    if (kind >= 6 && kind < 9) {
        for (int k = 0; k + 1 < d.old; k++) d.fresh[k] = p.commands[d.at + k + 1];
        d.fresh[d.old - 1] = p.commands[d.at];
    }
    if (kind == 9) d.count = 0;
    if (kind == 10)
        for (int k : {0, d.old - 1}) (below(2) ? d.fresh[k].x = first(p, d.at) : d.fresh[k].y = second(p, d.at));
    if (kind == 11) {
        d.count--;
        Command &c = d.fresh[below(d.count)];
        (below(2) ? c.x = first(p, d.at) : c.y = second(p, d.at));
    }
    for (int k = 0; k < d.count; k++)
        if (!is_legal(d.fresh[k])) return false;
    return true;
}

int main(int argc, char **argv) {
    double seconds = argc > 1 ? atof(argv[1]) : 1;
    int count = 0;
    Program p;
    if (scanf("%d %d %d %d", &sources, &results, &others, &count) != 4 || CELLS + results + others > 128) return 1;
    for (int k = 0, x, y; k < count && scanf("%d %d", &x, &y) == 2; k++) p.commands.push_back({x, y});
    fixed.resize(2 + sources);
    for (int k = 0; k < 2 + sources; k++)
        for (int j = 0; j < WORDS; j++) {
            fixed[k].ones[j] = k == 0 ? 0 : k == 1 ? ~0ull : word();
            fixed[k].zeros[j] = ~fixed[k].ones[j];
        }
    p.run_from(0);
    long tried = 0, right = 0;
    auto start = clock();
    Change d;
    while ((tried & 255) || double(clock() - start) / CLOCKS_PER_SEC < seconds) {
        tried++;
        if (!draw(p, d) || !stays(p, d.at, d.old, d.fresh, d.count)) continue;
        right++;
        p.commands.erase(p.commands.begin() + d.at, p.commands.begin() + d.at + d.old);
        p.commands.insert(p.commands.begin() + d.at, d.fresh, d.fresh + d.count);
        p.run_from(d.at);
    }
    double used = double(clock() - start) / CLOCKS_PER_SEC;
    printf("%.0f %.0f %zu\n", tried / used, right / used, p.commands.size());
}
