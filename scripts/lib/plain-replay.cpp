// A plain program that replays scripts of phaser commands: every line of the grammar, unproved. The
// proved program is measured beside it, and their replies are compared.
#include <algorithm>
#include <cstdint>
#include <cstring>
#include <optional>
#include <string>
#include <string_view>
#include <unistd.h>
#include <vector>

using Wide = __int128;
static const uint64_t MOST = 9223372036854775807u;
static std::string out;

// ---- words and numbers

// The word before the first space, which is taken from the text; the last word leaves none.
static bool has_more = false;
static std::string_view cut(std::string_view &text) {
    size_t at = text.find(' ');
    has_more = at != std::string_view::npos;
    std::string_view word = text.substr(0, at);
    text = has_more ? text.substr(at + 1) : std::string_view();
    return word;
}

static bool nat(std::string_view word, uint64_t &n) {
    if (word.empty() || word.size() > 19 || (word[0] == '0' && word.size() > 1)) return false;
    n = 0;
    for (char c : word) {
        if (c < '0' || c > '9') return false;
        n = n * 10 + (uint64_t)(c - '0');
    }
    return n <= MOST;
}

static bool integer(std::string_view word, int64_t &value) {
    bool is_minus = !word.empty() && word[0] == '-';
    uint64_t n;
    if (!nat(is_minus ? word.substr(1) : word, n) || (is_minus && n == 0)) return false;
    value = is_minus ? -(int64_t)n : (int64_t)n;
    return true;
}

// ---- values

enum class Op { Sum, Product, Least, Greatest, Any };
struct Part { Wide value = 0; uint32_t count = 0; bool big = false; };
enum class Fn { None, Neg, Abs, Halve, Clamp };
struct Single {
    Fn fn = Fn::None;
    int64_t low = 0, high = 0;
    bool operator==(const Single &) const = default;
};

static Op op;

static bool is_wide(Wide value) { return value > (Wide)MOST || value < -(Wide)MOST; }

static void join(Part &to, const Part &from) {
    if (from.count == 0) return;
    if (to.count == 0) { to = from; return; }
    switch (op) {
        case Op::Sum: to.value += from.value; break;
        case Op::Product:
            if ((to.value == 0 && !to.big) || (from.value == 0 && !from.big)) {
                to.value = 0;
                to.big = false;
            } else if (to.big || from.big) to.big = true;
            else { to.value *= from.value; to.big = is_wide(to.value); }
            break;
        case Op::Least: to.value = std::min(to.value, from.value); break;
        case Op::Greatest: to.value = std::max(to.value, from.value); break;
        case Op::Any: break;
    }
    to.count += from.count;
}

// ---- the phaser

enum Mode { Sig, Wait, SigWait, OfSingle };
static bool signals(Mode mode) { return mode != Wait; }
static bool waits(Mode mode) { return mode != Sig; }
static bool holds(Mode parent, Mode child) {
    return parent == OfSingle || parent == child || (parent == SigWait && child != OfSingle);
}

struct Member { uint64_t number; Mode mode; uint64_t s, w; Part held; };
struct Slot {
    Part part;
    bool is_named = false;
    Single named;
    uint32_t signallers = 0, waiters = 0;
};

static bool is_made = false, is_used = false;
static uint64_t bound, phases, base_phase, done_phase, top_phase, greatest;
static size_t signaller_count, waiter_count;
static std::vector<Member> members;
static std::vector<Slot> slots;

static Slot &slot(uint64_t phase) { return slots[phase % slots.size()]; }

static Member *find(uint64_t number) {
    auto at = std::lower_bound(members.begin(), members.end(), number,
        [](const Member &member, uint64_t n) { return member.number < n; });
    return at != members.end() && at->number == number ? &*at : nullptr;
}

static void settle() {
    while (done_phase < top_phase && slot(done_phase).signallers == 0) done_phase++;
}

static void give_up() {
    while (slot(base_phase).waiters == 0) slot(base_phase++) = Slot();
}

static void enter(Mode mode, uint64_t s, uint64_t w) {
    signaller_count += signals(mode);
    waiter_count += waits(mode);
    if (waiter_count == 0) return;
    if (signals(mode)) slot(s).signallers++;
    if (waits(mode)) slot(w).waiters++;
}

// ---- replies

static void say(const char *text) { out += text; }
static void say(const char *text, uint64_t phase) {
    out += text;
    out += std::to_string(phase);
    out += '\n';
}

static bool refuse_task(uint64_t task, Member *&member) {
    if (!is_made) return say("no phaser\n"), true;
    member = find(task);
    if (!member) return say("no no-task\n"), true;
    return false;
}

static bool make(std::string_view text) {
    static const char *names[] = {"sum", "product", "least", "greatest", "any"};
    std::string_view name = cut(text);
    int which = 0;
    while (which < 5 && name != names[which]) which++;
    if (which == 5 || !has_more) return false;
    uint64_t b, most;
    if (!nat(cut(text), b) || !has_more || !nat(text, most)) return false;
    if (is_made) say("no made\n");
    else if (b < 1 || b > 65536) say("no bad-bound\n");
    else if (most < 1 || most > (uint64_t)1 << 62) say("no bad-phases\n");
    else {
        op = (Op)which;
        is_made = is_used = true;
        bound = b;
        phases = most;
        slots.assign(bound + 1, Slot());
        members.push_back({0, OfSingle, 0, 0, Part()});
        enter(OfSingle, 0, 0);
        say("ok\n");
    }
    return true;
}

static bool add(std::string_view text) {
    static const char *names[] = {"sig", "wait", "sigwait", "single"};
    uint64_t parent, child;
    if (!nat(cut(text), parent) || !has_more || !nat(cut(text), child) || !has_more) return false;
    int which = 0;
    while (which < 4 && text != names[which]) which++;
    if (which == 4) return false;
    Mode mode = (Mode)which;
    Member *member;
    if (refuse_task(parent, member)) return true;
    if (!holds(member->mode, mode)) say("no not-allowed\n");
    else if (child <= greatest) say("no not-new\n");
    else if (members.size() >= 1024) say("no too-many-tasks\n");
    else {
        uint64_t s = member->s, w = member->w;
        members.push_back({child, mode, s, w, Part()});
        greatest = child;
        enter(mode, s, w);
        say("ok\n");
    }
    return true;
}

static bool now(std::string_view text) {
    uint64_t parent, child;
    if (!nat(cut(text), parent) || !has_more || !nat(text, child)) return false;
    Member *member;
    if (refuse_task(parent, member)) return true;
    if (!holds(member->mode, Wait)) say("no not-allowed\n");
    else if (child <= greatest) say("no not-new\n");
    else if (members.size() >= 1024) say("no too-many-tasks\n");
    else {
        uint64_t s = member->s;
        members.push_back({child, Wait, s, done_phase, Part()});
        greatest = child;
        enter(Wait, s, done_phase);
        say("ok ", done_phase);
    }
    return true;
}

static bool send(std::string_view text) {
    uint64_t task;
    int64_t value;
    if (!nat(cut(text), task) || !has_more || !integer(text, value)) return false;
    Member *member;
    if (refuse_task(task, member)) return true;
    if (!signals(member->mode)) say("no no-signal\n");
    else if (member->held.count == 65536) say("no too-many-sends\n");
    else {
        Part one{value, 1, false};
        join(member->held, one);
        say("ok\n");
    }
    return true;
}

static bool single_of(std::string_view text, Single &single) {
    std::string_view name = cut(text);
    if (!has_more) {
        single.fn = name == "neg"     ? Fn::Neg
                    : name == "abs"   ? Fn::Abs
                    : name == "halve" ? Fn::Halve
                                      : Fn::None;
        return single.fn != Fn::None;
    }
    single.fn = Fn::Clamp;
    return name == "clamp" && integer(cut(text), single.low) && has_more &&
           integer(text, single.high) && single.low <= single.high;
}

static bool signal_one(std::string_view text) {
    uint64_t task;
    Single single;
    bool is_number = nat(cut(text), task);
    if (!is_number || (has_more && !single_of(text, single))) return false;
    Member *member;
    if (refuse_task(task, member)) return true;
    uint64_t s = member->s;
    if (!signals(member->mode)) return say("no no-signal\n"), true;
    if (single.fn != Fn::None && member->mode != OfSingle) return say("no not-single\n"), true;
    if (waits(member->mode) && s == member->w + 1) return say("no signal-twice\n"), true;
    if (s >= phases) return say("no spent\n"), true;
    if (waiter_count > 0) {
        if (s >= base_phase + bound) return say("no ahead\n"), true;
        Slot &joined = slot(s);
        if (joined.is_named && !(joined.named == single)) return say("no single-differs\n"), true;
        if (joined.part.count + member->held.count > 65536) return say("no phase-full\n"), true;
        join(joined.part, member->held);
        if (!joined.is_named) joined.named = single;
        joined.is_named = true;
        joined.signallers--;
        slot(s + 1).signallers++;
    }
    member->held = Part();
    member->s++;
    top_phase = std::max(top_phase, s + 1);
    if (waiter_count > 0) settle();
    return say("ok ", s), true;
}

static bool block(std::string_view text) {
    uint64_t task;
    if (!nat(cut(text), task) || !has_more) return false;
    int64_t values[16];
    size_t count = 0;
    for (bool is_more = true; is_more; is_more = has_more) {
        if (count == 16) return false;
        if (!integer(cut(text), values[count++])) return false;
    }
    Member *member;
    if (refuse_task(task, member)) return true;
    uint64_t s = member->s;
    if (!signals(member->mode)) return say("no no-signal\n"), true;
    if (member->held.count > 0) return say("no held\n"), true;
    if (count > bound) return say("no bad-block\n"), true;
    for (size_t i = 0; i < count; i++) {
        if (waits(member->mode) && s + i == member->w + 1) return say("no signal-twice\n"), true;
        if (s + i >= phases) return say("no spent\n"), true;
        if (waiter_count == 0) continue;
        if (s + i >= base_phase + bound) return say("no ahead\n"), true;
        Slot &joined = slot(s + i);
        if (joined.is_named && joined.named.fn != Fn::None) return say("no single-differs\n"), true;
        if (joined.part.count + 1 > 65536) return say("no phase-full\n"), true;
    }
    for (size_t i = 0; i < count && waiter_count > 0; i++) {
        Slot &joined = slot(s + i);
        join(joined.part, Part{values[i], 1, false});
        joined.is_named = true;
        joined.signallers--;
        slot(s + i + 1).signallers++;
    }
    member->s += count;
    top_phase = std::max(top_phase, member->s);
    if (waiter_count > 0) settle();
    return say("ok ", s), true;
}

static int64_t applied(const Single &single, int64_t value) {
    switch (single.fn) {
        case Fn::Neg: return -value;
        case Fn::Abs: return value < 0 ? -value : value;
        case Fn::Halve: return value >> 1;
        case Fn::Clamp: return std::max(single.low, std::min(value, single.high));
        default: return value;
    }
}

// Whether a phase gave a value, or else the word for what it gave.
static const char *value_of(const Slot &read, int64_t &given) {
    const Part &part = read.part;
    Wide value = part.count == 0 && op == Op::Product ? 1 : part.value;
    if (part.count == 0 && op > Op::Product) return "empty";
    if (part.big || is_wide(value)) return "toobig";
    given = applied(read.named, (int64_t)value);
    return nullptr;
}

static void say_value(uint64_t phase, const Slot &read) {
    int64_t given = 0;
    const char *word = value_of(read, given);
    out += word ? word : "value";
    out += ' ';
    out += std::to_string(phase);
    if (!word) {
        out += ' ';
        out += std::to_string(given);
    }
    out += '\n';
}

static bool wait_one(std::string_view text) {
    uint64_t task;
    if (!nat(text, task)) return false;
    Member *member;
    if (refuse_task(task, member)) return true;
    uint64_t w = member->w;
    if (!waits(member->mode)) say("no no-wait\n");
    else if (signals(member->mode) && member->s == w) say("no signal-first\n");
    else if (w >= done_phase && signaller_count > 0) say("no not-yet\n");
    else if (w >= done_phase) say("ended\n");
    else {
        say_value(w, slot(w));
        slot(w).waiters--;
        slot(w + 1).waiters++;
        member->w++;
        give_up();
    }
    return true;
}

static bool take_block(std::string_view text) {
    uint64_t task, asked;
    if (!nat(cut(text), task) || !has_more || !nat(text, asked)) return false;
    if (asked < 1 || asked > 16) return false;
    Member *member;
    if (refuse_task(task, member)) return true;
    uint64_t w = member->w;
    if (!waits(member->mode)) return say("no no-wait\n"), true;
    if (asked > bound) return say("no bad-block\n"), true;
    if (signals(member->mode) && member->s == w) return say("no signal-first\n"), true;
    if (w >= done_phase && signaller_count > 0) return say("no not-yet\n"), true;
    if (w >= done_phase) return say("ended\n"), true;
    uint64_t count = std::min(asked, done_phase - w);
    out += "values ";
    out += std::to_string(w);
    for (uint64_t i = 0; i < count; i++) {
        int64_t given = 0;
        const char *word = value_of(slot(w + i), given);
        out += ' ';
        out += word ? std::string(word) : std::to_string(given);
    }
    out += '\n';
    slot(w).waiters--;
    slot(w + count).waiters++;
    member->w += count;
    give_up();
    return true;
}

static bool drop(std::string_view text) {
    uint64_t task;
    if (!nat(text, task)) return false;
    Member *member;
    if (refuse_task(task, member)) return true;
    Member gone = *member;
    members.erase(members.begin() + (member - members.data()));
    bool had_waiter = waiter_count > 0;
    signaller_count -= signals(gone.mode);
    waiter_count -= waits(gone.mode);
    if (had_waiter && waiter_count > 0) {
        if (signals(gone.mode)) slot(gone.s).signallers--;
        if (waits(gone.mode)) slot(gone.w).waiters--;
        settle();
        give_up();
    }
    return say("ok\n"), true;
}

static bool obey(std::string_view line) {
    std::string_view verb = cut(line);
    if (!has_more) return false;
    if (verb == "send") return send(line);
    if (verb == "signal") return signal_one(line);
    if (verb == "wait") return wait_one(line);
    if (verb == "block") return block(line);
    if (verb == "take") return take_block(line);
    if (verb == "add") return add(line);
    if (verb == "now") return now(line);
    if (verb == "drop") return drop(line);
    if (verb == "make") return make(line);
    return false;
}

// ---- lines

static void take(std::string_view line) {
    if (!line.empty() && line.back() == '\r') line.remove_suffix(1);
    if (!obey(line)) say("bad line\n");
}

static void hand_over() {
    size_t at = 0;
    while (at < out.size()) {
        ssize_t count = write(1, out.data() + at, out.size() - at);
        if (count <= 0) _exit(5);
        at += (size_t)count;
    }
    out.clear();
}

int main() {
    static char piece[65536];
    std::string rest;
    for (;;) {
        hand_over();
        ssize_t count = read(0, piece, sizeof piece);
        if (count < 0) return 5;
        if (count == 0) break;
        std::string_view text(piece, (size_t)count);
        size_t at;
        while ((at = text.find('\n')) != std::string_view::npos) {
            if (rest.empty()) take(text.substr(0, at));
            else {
                rest += text.substr(0, at);
                take(rest);
                rest.clear();
            }
            text.remove_prefix(at + 1);
            if (out.size() >= 65536) hand_over();
        }
        rest += text;
    }
    if (!rest.empty()) take(rest);
    hand_over();
    return 0;
}
