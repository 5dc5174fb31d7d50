// A plain C++ program of the same job as `eptrun`, as a yardstick of its speed: it reads a script from standard input,
// and `run` writes its report, `check` its canonical form. It has the same grammar, refusals, limits and exit statuses,
// and runs the same scripts: those of one mutator and no marker, with no meet but the end, and nine operations.
// Nothing of it is proved or part of the gate. `bench/scripts.sh` builds it by `c++ -O2 -std=c++17`.
#include <array>
#include <bitset>
#include <cerrno>
#include <charconv>
#include <csignal>
#include <cstdint>
#include <new>
#include <string>
#include <string_view>
#include <unistd.h>
#include <vector>

namespace {

constexpr std::size_t most_bytes = 4194304;
constexpr std::uint32_t most_operations = 200000;
constexpr std::uint32_t most_meets = 1000;
constexpr std::uint8_t no_variable = 16;

enum Status { ok = 0, usage = 2, refused = 3, read_fault = 4, write_fault = 5, no_memory = 6, too_long = 7, not_built = 8 };

enum class Refusal { none, bad_header, bad_line, bad_tag, bad_number, out_of_range, bad_meet, too_many };

enum class Kind : std::uint8_t {
    make, drop, link, fetch, set_global, get_global, init, load, store, swap, name, forge, raw, raw_set,
    trusted_make, publish, trusted_load, trusted_raw, share
};

// The places after an operation's name: `a` its variable, `b` another variable, `c` the same or `-`, `k` a reference,
// `f` a field, `g` a global, `t` a tag, `w` an index word, `x` a value.
struct Form { std::string_view name, places; };
constexpr std::array<Form, 19> forms{{
    {"new", "a"}, {"drop", "a"}, {"link", "akc"}, {"fetch", "bak"}, {"setg", "gc"}, {"getg", "ag"}, {"init", "aftx"},
    {"load", "aft"}, {"store", "aftx"}, {"swap", "aftx"}, {"name", "af"}, {"forge", "afw"}, {"raw", "wt"},
    {"rawset", "wtx"}, {"tnew", "atx"}, {"tpub", "a"}, {"tload", "at"}, {"traw", "wt"}, {"share", "ab"},
}};

struct Op {
    Kind kind;
    std::uint8_t variable = 0, other = 0, number = 0, tag = 0;
    std::uint32_t word = 0;
    std::uint64_t value = 0;
};

enum class Meet { plain, start_auto, start_always, start_never, finish, end };
constexpr std::array<std::string_view, 6> meet_lines{"meet", "start auto", "start always", "start never", "finish", "end"};

struct Phase { std::vector<std::vector<Op>> calls; Meet meet = Meet::end; };

constexpr std::array<std::string_view, 6> limit_names{"seg=", "ext=", "tru=", "objects=", "mutators=", "markers="};
struct Script {
    std::array<std::uint32_t, 6> limits{};  // in the order of their names
    std::vector<Phase> phases;
    std::uint32_t objects() const { return limits[3]; }
    std::uint32_t mutators() const { return limits[4]; }
    std::uint32_t markers() const { return limits[5]; }
};

// A small number: `0`, or a digit from 1 to 9 with at most eight more.
bool read_number(std::string_view word, std::uint32_t& number) {
    if (word.empty() || word.size() > 9 || (word[0] == '0' && word.size() > 1)) return false;
    number = 0;
    for (char c : word) {
        if (c < '0' || c > '9') return false;
        number = 10 * number + static_cast<std::uint32_t>(c - '0');
    }
    return true;
}

// Exactly so many lower-case hexadecimal digits.
bool read_digits(std::string_view word, std::size_t count, std::uint64_t& number) {
    if (word.size() != count) return false;
    number = 0;
    for (char c : word) {
        int digit = c >= '0' && c <= '9' ? c - '0' : c >= 'a' && c <= 'f' ? c - 'a' + 10 : -1;
        if (digit < 0) return false;
        number = number << 4 | static_cast<std::uint64_t>(digit);
    }
    return true;
}

bool read_variable(std::string_view word, std::uint8_t& variable) {
    if (word.size() != 1 || word[0] < 'a' || word[0] > 'p') return false;
    variable = static_cast<std::uint8_t>(word[0] - 'a');
    return true;
}

class Parser {
public:
    explicit Parser(std::string_view text) : text_(text) {}

    // The first refusal, with its line, or none.
    Refusal parse(Script& script) {
        while (at_ < text_.size()) {
            std::size_t end = text_.find('\n', at_);
            bool whole = end != std::string_view::npos;
            std::string_view line = text_.substr(at_, (whole ? end : text_.size()) - at_);
            at_ = whole ? end + 1 : text_.size();
            ++line_;
            Refusal refusal = whole ? take_line(script, line) : has_header_ ? Refusal::bad_line : Refusal::bad_header;
            if (refusal != Refusal::none) return refusal;
        }
        if (!has_header_) return Refusal::bad_header;
        if (has_end_) return Refusal::none;
        ++line_;
        return Refusal::bad_line;
    }
    std::uint32_t line() const { return line_; }

private:
    std::string_view text_;
    std::size_t at_ = 0;
    std::uint32_t line_ = 0, operations_ = 0, meets_ = 0;
    bool has_header_ = false, has_end_ = false, in_cycle_ = false;
    std::array<std::string_view, 8> words_;
    std::size_t count_ = 0;  // how many words the line has; the first eight are kept

    Refusal take_line(Script& script, std::string_view line) {
        if (line.empty() || line[0] == '#') return Refusal::none;
        split(line);
        if (!has_header_) return take_header(script);
        if (has_end_) return Refusal::bad_line;
        if (words_[0][0] == 'm' && words_[0].size() > 1 && words_[0] != "meet") return take_operation(script);
        return take_meet(script, line);
    }

    void split(std::string_view line) {
        count_ = 0;
        std::size_t begin = 0;
        for (std::size_t end = 0; end <= line.size(); ++end) {
            if (end < line.size() && line[end] != ' ') continue;
            if (count_ < words_.size()) words_[count_] = {line.data() + begin, end - begin};
            ++count_;
            begin = end + 1;
        }
        if (count_ == 1) words_[1] = {};
    }

    Refusal take_header(Script& script) {
        if (count_ != 8 || words_[0] != "ept" || words_[1] != "1") return Refusal::bad_header;
        auto& limits = script.limits;
        for (std::size_t i = 0; i < limits.size(); ++i) {
            std::string_view word = words_[i + 2], name = limit_names[i];
            if (word.substr(0, name.size()) != name || !read_number(word.substr(name.size()), limits[i])) return Refusal::bad_header;
        }
        std::uint32_t seg = limits[0];
        if (seg != 4 && seg != 16 && seg != 64 && seg != 256) return Refusal::bad_header;
        auto within = [](std::uint32_t n, std::uint32_t least, std::uint32_t most) { return least <= n && n <= most; };
        if (!within(limits[1], 1, 65536 / seg) || !within(limits[2], 1, 65536 / seg) || !within(limits[3], 1, 16384)
            || !within(limits[4], 1, 8) || !within(limits[5], 0, 4)) return Refusal::bad_header;
        has_header_ = true;
        begin_phase(script);
        return Refusal::none;
    }

    static void begin_phase(Script& script) {
        script.phases.emplace_back();
        script.phases.back().calls.resize(script.mutators());
    }

    Refusal take_operation(Script& script) {
        std::size_t kind = 0;
        while (kind < forms.size() && forms[kind].name != words_[1]) ++kind;
        if (kind == forms.size()) return Refusal::bad_line;
        std::string_view places = forms[kind].places;
        if (count_ != places.size() + 2) return Refusal::bad_line;
        Op op{static_cast<Kind>(kind)};
        Refusal refusal = Refusal::none;
        auto refuse = [&refusal](Refusal other) { if (refusal == Refusal::none || other < refusal) refusal = other; };
        std::uint32_t mutator = 0;
        if (!read_number(words_[0].substr(1), mutator)) refuse(Refusal::bad_number);
        else if (mutator >= script.mutators()) refuse(Refusal::out_of_range);
        for (std::size_t i = 0; i < places.size(); ++i) refuse_place(places[i], words_[i + 2], op, refuse);
        if (refusal == Refusal::none && operations_ == most_operations) return Refusal::too_many;
        if (refusal != Refusal::none) return refusal;
        ++operations_;
        script.phases.back().calls[mutator].push_back(op);
        return Refusal::none;
    }

    template <typename Refuse>
    static void refuse_place(char place, std::string_view word, Op& op, Refuse& refuse) {
        std::uint64_t digits = 0;
        std::uint32_t number = 0;
        switch (place) {
        case 'a': if (!read_variable(word, op.variable)) refuse(Refusal::bad_line); break;
        case 'b': if (!read_variable(word, op.other)) refuse(Refusal::bad_line); break;
        case 'c':
            if (word == "-") op.other = no_variable;
            else if (!read_variable(word, op.other)) refuse(Refusal::bad_line);
            break;
        case 't':
            if (!read_digits(word, 2, digits) || std::bitset<8>(digits).count() != 4) refuse(Refusal::bad_tag);
            op.tag = static_cast<std::uint8_t>(digits);
            break;
        case 'w':
            if (!read_digits(word, 8, digits)) refuse(Refusal::bad_number);
            op.word = static_cast<std::uint32_t>(digits);
            break;
        case 'x': if (!read_digits(word, 12, op.value)) refuse(Refusal::bad_number); break;
        default:
            if (!read_number(word, number)) refuse(Refusal::bad_number);
            else if (number >= (place == 'f' ? 2u : place == 'k' ? 4u : 16u)) refuse(Refusal::out_of_range);
            op.number = static_cast<std::uint8_t>(number);
        }
    }

    Refusal take_meet(Script& script, std::string_view line) {
        std::size_t meet = 0;
        while (meet < meet_lines.size() && meet_lines[meet] != line) ++meet;
        if (meet == meet_lines.size()) return Refusal::bad_line;
        Meet kind = static_cast<Meet>(meet);
        bool starts = kind == Meet::start_auto || kind == Meet::start_always || kind == Meet::start_never;
        if (((starts || kind == Meet::end) && in_cycle_) || (kind == Meet::finish && !in_cycle_)) return Refusal::bad_meet;
        if (kind != Meet::end && meets_ == most_meets) return Refusal::too_many;
        script.phases.back().meet = kind;
        if (kind == Meet::end) {
            has_end_ = true;
            return Refusal::none;
        }
        ++meets_;
        in_cycle_ = starts || (in_cycle_ && kind != Meet::finish);
        begin_phase(script);
        return Refusal::none;
    }
};

void put_hex(std::string& out, std::uint64_t number, std::size_t digits) {
    std::array<char, 16> text;
    for (std::size_t i = digits; i-- > 0; number >>= 4) text[i] = "0123456789abcdef"[number & 15];
    out.append(text.data(), digits);
}

void put_number(std::string& out, std::uint32_t number) {
    std::array<char, 10> text;
    out.append(text.data(), std::to_chars(text.data(), text.data() + text.size(), number).ptr);
}

void put_mutator(std::string& out, std::size_t mutator) {
    const std::array<char, 3> text{'m', static_cast<char>('0' + mutator), ' '};
    out.append(text.data(), text.size());
}

std::string refusal_text(Refusal refusal, std::uint32_t line) {
    static constexpr std::array<std::string_view, 8> texts{"", "refused: bad header", "bad line", "bad tag", "bad number", "out of range", "bad meet", "too many"};
    std::string out;
    if (refusal != Refusal::bad_header) out += "line " + std::to_string(line) + ": ";
    out += texts[static_cast<std::size_t>(refusal)];
    out += '\n';
    return out;
}

void put_operation(std::string& out, std::size_t mutator, const Op& op) {
    const Form& form = forms[static_cast<std::size_t>(op.kind)];
    put_mutator(out, mutator);
    out += form.name;
    for (char place : form.places) {
        out += ' ';
        switch (place) {
        case 'a': out += static_cast<char>('a' + op.variable); break;
        case 'b': out += static_cast<char>('a' + op.other); break;
        case 'c': out += op.other == no_variable ? '-' : static_cast<char>('a' + op.other); break;
        case 't': put_hex(out, op.tag, 2); break;
        case 'w': put_hex(out, op.word, 8); break;
        case 'x': put_hex(out, op.value, 12); break;
        default: put_number(out, op.number);
        }
    }
    out += '\n';
}

std::string canonical_text(const Script& script) {
    std::string out = "ept 1";
    for (std::size_t i = 0; i < limit_names.size(); ++i) {
        out += ' ';
        out += limit_names[i];
        out += std::to_string(script.limits[i]);
    }
    out += '\n';
    for (const Phase& phase : script.phases) {
        for (std::size_t mutator = 0; mutator < phase.calls.size(); ++mutator)
            for (const Op& op : phase.calls[mutator]) put_operation(out, mutator, op);
        out += meet_lines[static_cast<std::size_t>(phase.meet)];
        out += '\n';
    }
    return out;
}

bool is_built(const Script& script) {
    if (script.mutators() != 1 || script.markers() != 0 || script.phases.size() != 1) return false;
    for (const Op& op : script.phases[0].calls[0]) {
        if (op.kind != Kind::make && (op.kind < Kind::init || op.kind > Kind::raw_set)) return false;
    }
    return true;
}

// The table of one mutator: entry words, index words of fields, and a freelist through the free entries.
class Table {
public:
    explicit Table(const Script& script)
        : entries_(std::size_t{script.limits[0]} * script.limits[1]), fields_(2 * std::size_t{script.objects()}), most_objects_(script.objects()) {
        variables_.fill(no_object);
        for (std::size_t i = 1; i < entries_.size(); ++i) entries_[i] = free_bit | (i + 1 < entries_.size() ? i + 1 : 0);
        head_ = 1;
    }

    void run(const Op& op, std::string& out) {
        put_mutator(out, 0);
        switch (op.kind) {
        case Kind::make: make(op, out); return;
        case Kind::raw: look(op.word, op.tag, out); return;
        case Kind::raw_set: if (std::uint64_t* entry = look_for(op.word, op.tag, out)) set(*entry, op, out); return;
        default: break;
        }
        std::uint32_t object = variables_[op.variable];
        if (object == no_object) {
            out += "empty\n";
            return;
        }
        std::uint32_t& field = fields_[2 * std::size_t{object} + op.number];
        switch (op.kind) {
        case Kind::init: init(field, op, out); return;
        case Kind::load: look(field, op.tag, out); return;
        case Kind::store: if (std::uint64_t* entry = look_for(field, op.tag, out)) set(*entry, op, out); return;
        case Kind::swap: if (std::uint64_t* entry = look_for(field, op.tag, out)) swap(*entry, op, out); return;
        case Kind::name: put_word("word ", field, out); return;
        default: field = op.word; out += "ok\n";
        }
    }

    void put_end(std::string& out) const {
        out += "end live=" + std::to_string(live_) + " trusted=0 objects=" + std::to_string(objects_) + "\n";
    }

private:
    static constexpr std::uint32_t no_object = ~std::uint32_t{0};
    static constexpr std::uint64_t free_bit = std::uint64_t{1} << 56, marking_bit = std::uint64_t{1} << 62, value_mask = (std::uint64_t{1} << 48) - 1;
    std::vector<std::uint64_t> entries_;
    std::vector<std::uint32_t> fields_;
    std::array<std::uint32_t, 16> variables_{};
    std::uint64_t head_ = 0;
    std::uint32_t most_objects_, objects_ = 0, live_ = 0;

    static std::uint64_t word_of(const Op& op) { return marking_bit | std::uint64_t{op.tag} << 48 | op.value; }

    void make(const Op& op, std::string& out) {
        if (objects_ == most_objects_) {
            out += "heapfull\n";
            return;
        }
        variables_[op.variable] = objects_;
        out += "obj ";
        put_number(out, objects_++);
        out += '\n';
    }

    void init(std::uint32_t& field, const Op& op, std::string& out) {
        if (head_ == 0 || head_ >= entries_.size()) {
            out += "full\n";
            return;
        }
        std::uint64_t index = head_;
        head_ = entries_[index] & 0xffffffff;
        entries_[index] = word_of(op);
        ++live_;
        if (field != 0) {
            put_word("taken ", field, out);
            return;
        }
        field = static_cast<std::uint32_t>(index << 16);
        out += "ok\n";
    }

    // The entry that a word names, if it is a cell under the tag; else the reply is written.
    std::uint64_t* look_for(std::uint32_t word, std::uint8_t tag, std::string& out) {
        std::size_t index = word >> 16;
        std::uint64_t entry = index < entries_.size() ? entries_[index] : free_bit;
        if ((entry & ~(marking_bit | value_mask)) == std::uint64_t{tag} << 48) return &entries_[index];
        out += entry == 0 ? "null\n" : "fault\n";
        return nullptr;
    }

    void look(std::uint32_t word, std::uint8_t tag, std::string& out) {
        if (const std::uint64_t* entry = look_for(word, tag, out)) put_value(*entry, out);
    }

    static void set(std::uint64_t& entry, const Op& op, std::string& out) {
        entry = word_of(op);
        out += "ok\n";
    }

    static void swap(std::uint64_t& entry, const Op& op, std::string& out) {
        put_value(entry, out);
        entry = word_of(op);
    }

    static void put_value(std::uint64_t entry, std::string& out) {
        out += "value ";
        put_hex(out, entry & value_mask, 12);
        out += '\n';
    }

    static void put_word(std::string_view reply, std::uint32_t word, std::string& out) {
        out += reply;
        put_hex(out, word, 8);
        out += '\n';
    }
};

std::string report_text(const Script& script) {
    std::string out;
    Table table(script);
    for (const Op& op : script.phases[0].calls[0]) table.run(op, out);
    table.put_end(out);
    return out;
}

Status read_script(std::string& text) {
    for (std::array<char, 65536> piece;;) {
        ssize_t count = read(0, piece.data(), piece.size());
        if (count < 0 && errno == EINTR) continue;
        if (count < 0) return read_fault;
        if (count == 0) return ok;
        text.append(piece.data(), static_cast<std::size_t>(count));
        if (text.size() > most_bytes) return too_long;
    }
}

Status write_all(std::string_view text) {
    while (!text.empty()) {
        ssize_t count = write(1, text.data(), text.size());
        if (count < 0 && errno == EINTR) continue;
        if (count <= 0) return write_fault;
        text.remove_prefix(static_cast<std::size_t>(count));
    }
    return ok;
}

Status run_main(std::string_view form) {
    std::string text;
    if (Status status = read_script(text); status != ok) return status;
    Script script;
    Parser parser(text);
    Refusal refusal = parser.parse(script);
    if (refusal != Refusal::none) {
        Status written = write_all(refusal_text(refusal, parser.line()));
        return written == ok ? refused : written;
    }
    if (form == "check") return write_all(canonical_text(script));
    return is_built(script) ? write_all(report_text(script)) : not_built;
}

}  // namespace

int main(int count, char** words) {
    if (count != 2 || (std::string_view(words[1]) != "run" && std::string_view(words[1]) != "check")) return usage;
    std::signal(SIGPIPE, SIG_IGN);
    try {
        return run_main(words[1]);
    } catch (const std::bad_alloc&) {
        return no_memory;
    }
}
