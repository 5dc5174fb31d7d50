// What `sweep_times` times, in plain C++ over the same words, written as one would without proofs: plain_sweep KIND SEGMENTS TURNS.
// The kinds and what is written are those of `sweep_times`. What it does less: a table has no cells that wait to be published,
// which `sweep` looks through; the sweep counts no cell as kept past the last segment in use, where none can be; and late marking
// begins with the list that the start of the cycle made, which `late_mark` copies.
#include <algorithm>
#include <chrono>
#include <cstdint>
#include <cstdio>
#include <cstdlib>
#include <string>
#include <vector>

using Word = uint64_t;
constexpr Word mark_bit = Word{1} << 62, evacuation_bit = Word{1} << 58, no_access = Word{1} << 57, free_bit = Word{1} << 56;
constexpr Word tag_unit = Word{1} << 48, low = 0xffffffff, segment = 256, trusted_limit = segment;

// The nanoseconds of a part, and how much it did.
struct Spent {
    Word time = 0, done = 0;

    template <class Part> void add(Part part) {
        const auto begin = std::chrono::steady_clock::now();
        const Word did = part();
        time += std::chrono::nanoseconds(std::chrono::steady_clock::now() - begin).count();
        done += did;
    }
};

// The freelist of a space, and where the entries that are not committed begin.
struct Freelist {
    Word head = 1, length = segment - 1, committed = segment;
};

struct Table {
    Word objects, limit, base, count = 0, start = 0, listed = 0;
    bool aborted = false;
    std::vector<Word> words;
    std::vector<uint32_t> list;
    uint32_t variables[128] = {};
    Freelist external, trusted;

    Table(Word most, Word segments)
        : objects(most), limit(segment * segments), base(32 + 8 * most), words(base + limit + trusted_limit), list(most) {
        for (Word i = 1; i < limit; i++) entry(i) = i < segment ? free_bit + i + 1 : no_access;
        for (Word i = 1; i < trusted_limit; i++) entry(limit + i) = free_bit + i + 1;
    }
    Word &global(Word g) { return words[16 + g]; }
    Word &header(Word o) { return words[32 + 8 * o]; }
    Word &reference(Word o, Word k) { return words[33 + 8 * o + k]; }
    Word &field(Word n) { return words[37 + 8 * (n / 2) + n % 2]; }
    Word &trusted_field(Word o) { return words[39 + 8 * o]; }
    Word &entry(Word i) { return words[base + i]; }
    static bool is_cell(Word word) { return (word >> 48 & 0xff) != 0 && (word & (free_bit | no_access | evacuation_bit)) == 0; }

    // The least free index, or 0 where there is none.
    Word take() {
        Freelist &free = external;
        if (free.length == 0) {
            if (free.committed == limit) return 0;
            for (Word i = free.committed; i < free.committed + segment; i++) entry(i) = free_bit + i + 1;
            free = {free.committed, segment, free.committed + segment};
        }
        const Word index = free.head;
        free.head = entry(index) & low;
        free.length--;
        return index;
    }
    void init(Word n, Word value) {
        const Word index = take();
        if (index == 0) return;
        entry(index) = value + 15 * tag_unit + mark_bit;
        field(n) = index << 16;
    }
    // The object is shaded, and stands at the end of the list, where it is white; answers the new length.
    Word shade(Word named, Word length) {
        if (named == 0 || header(named - 1) != 0) return length;
        header(named - 1) = 1;
        list[length] = named - 1;
        return length + 1;
    }
    Word shade_roots(Word length) {
        for (Word g = 0; g < 16; g++) length = shade(global(g), length);
        for (uint32_t named : variables) length = shade(named, length);
        return length;
    }
    static void clear_marks(Word *words, Word many) {
        for (Word i = 0; i < many; i++) words[i] &= ~mark_bit;
    }
    void begin(bool area) {
        clear_marks(&entry(0), limit + trusted_limit);
        Word at = external.head, greatest = external.committed;
        std::vector<bool> is_free(greatest);
        for (Word n = 0; n < external.length; n++, at = entry(at) & low) is_free[at] = true;
        while (is_free[--greatest]) {}
        const Word segments = 1 + greatest / segment;
        start = area && segments >= 2 ? (segments - segments / 2) * segment : 0;
        aborted = false;
        for (Word o = 0; o < objects; o++) header(o) = o < count ? 0 : 3;
        listed = shade_roots(0);
    }
    void mark(Word first, Word many, Word index) {
        if (index < many && is_cell(words[first + index])) words[first + index] |= mark_bit;
    }
    void visit(Word n) {
        const Word index = field(n) >> 16;
        mark(base, limit, index);
        if (start == 0 || aborted || index < start || index >= limit || !is_cell(entry(index))) return;
        if (external.length == 0 || external.head >= start) {
            aborted = true;
            return;
        }
        const Word to = external.head;
        external.head = entry(to) & low;
        external.length--;
        entry(to) = evacuation_bit + n;
    }
    // Answers how many objects are scanned.
    Word late_mark() {
        Word next = 0, end = shade_roots(listed);
        for (; next < end; next++) {
            const Word o = list[next];
            for (Word k = 0; k < 4; k++) end = shade(reference(o, k), end);
            visit(2 * o);
            visit(2 * o + 1);
            mark(base + limit, trusted_limit, trusted_field(o) >> 16);
            header(o) = 3;
        }
        return next;
    }
    // From the top of the lower part down: the greatest entry for a cell gets it, and leaves a word that says where it went.
    void move_cells() {
        for (Word e = start - 1; e > 0; e--) {
            if ((entry(e) & evacuation_bit) == 0) continue;
            const Word n = entry(e) & low, index = field(n) >> 16;
            if (index < start || index >= limit) continue;
            if (entry(index) >= mark_bit) {
                entry(e) = entry(index);
                entry(index) = evacuation_bit + e;
            } else if ((entry(index) & evacuation_bit) == 0) {
                continue;
            }
            field(n) = (entry(index) & low) << 16;
        }
    }
    // Answers the cells kept, freed and moved, and the segments in use, added.
    Word sweep_space(Word first, Word many, Word from, Freelist &free) {
        Word *const entries = &words[first];
        Word top = from - 1;
        while (top > 0 && entries[top] < mark_bit) top--;
        const Word segments = 1 + top / segment;
        const Word end = segments * segment;
        Word kept = 0, freed = 0, moved = 0, head = end, length = 0;
        for (Word i = many - 1; i >= end; i--) {
            freed += is_cell(entries[i]);
            moved += i >= from && (entries[i] & evacuation_bit) != 0;
            entries[i] = no_access;
        }
        for (Word i = end - 1; i > 0; i--) {
            const Word word = entries[i];
            if (i < from && word >= mark_bit) {
                entries[i] = word - mark_bit;
                kept++;
                continue;
            }
            freed += is_cell(word);
            moved += i >= from && (word & evacuation_bit) != 0;
            entries[i] = free_bit + head;
            head = i;
            length++;
        }
        free = {head, length, end};
        return kept + freed + moved + segments;
    }
    Word sweep() {
        const bool moves = start != 0 && !aborted;
        if (moves) move_cells();
        const Word told = sweep_space(base, limit, moves ? start : limit, external);
        sweep_space(base + limit, trusted_limit, trusted_limit, trusted);
        for (Word o = 0; o < objects; o++) header(o) = 0;
        start = 0;
        return told;
    }
    void chains(Word many_objects, Word many, bool cells) {
        for (Word n = 0; n < many_objects; n++) {
            const Word o = count++;
            if (cells) init(2 * o, n), init(2 * o + 1, n);
            reference(o, 0) = global(n % many);
            global(n % many) = o + 1;
        }
    }
    void heap() {
        for (Word n = 0; n < objects; n++) {
            const Word o = count++;
            for (Word k = 0; k < 4; k++) reference(o, k) = global(k);
            global(n % 4) = o + 1;
        }
    }
    void trees() {
        for (Word root = 0; root < 3; root++) {
            Word above[7] = {count++};
            global(root) = above[0] + 1;
            for (Word leaf = 0; leaf < 4096; leaf++) {
                for (Word depth = leaf == 0 ? 1 : 6 - __builtin_ctzll(leaf) / 2; depth < 7; depth++) {
                    above[depth] = count++;
                    reference(above[depth - 1], leaf >> 2 * (6 - depth) & 3) = above[depth] + 1;
                }
            }
        }
    }
};

static Spent clearings(Word many, Word turns) {
    Spent spent;
    std::vector<Word> words(many);
    for (Word n = 0; n < turns; n++) {
        std::fill(words.begin(), words.end(), mark_bit + 15 * tag_unit);
        spent.add([&] { return Table::clear_marks(words.data(), many), 0; });
        spent.done += std::count_if(words.begin(), words.end(), [](Word word) { return word < mark_bit; });
    }
    return spent;
}

static Spent moves(Word segments, Word turns) {
    Spent spent;
    for (Word n = 0; n < turns; n++) {
        Table table(64 * segments, segments);
        table.chains(32 * segments, 1, true);
        table.global(0) = 0;
        table.chains(32 * segments, 1, true);
        table.begin(false), table.late_mark(), table.sweep();
        table.begin(true), table.late_mark();
        spent.add([&] { return table.sweep(); });
    }
    return spent;
}

static Spent cycles(const std::string &kind, Word segments, Word turns) {
    Spent marking, sweep;
    Table table(kind == "empty" ? 1 : 64 * segments, segments);
    if (kind == "chain") table.chains(table.objects, 1, false);
    if (kind == "wide") table.chains(table.objects, 16, false);
    if (kind == "tree") table.trees();
    if (kind == "heap") table.heap();
    if (kind == "cells") table.chains(table.objects, 1, true);
    for (Word n = 0; n < turns; n++) {
        table.begin(false);
        marking.add([&] { return table.late_mark(); });
        sweep.add([&] { return table.sweep(); });
    }
    return kind == "empty" || kind == "cells" ? sweep : marking;
}

int main(int words, char **word) {
    if (words != 4) return 2;
    const std::string kind = word[1];
    const Word segments = strtoull(word[2], nullptr, 10), turns = strtoull(word[3], nullptr, 10);
    const Spent spent = kind == "clear" ? clearings(segment * segments, turns)
        : kind == "moves" ? moves(segments, turns) : cycles(kind, segments, turns);
    printf("%llu %llu\n", static_cast<unsigned long long>(spent.time), static_cast<unsigned long long>(spent.done));
}
