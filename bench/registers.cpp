// Compares what `audit --register` prints with the definitions by intervals, for many histories: a part of bench/registers, which explains how. It has no
// floor and no single pass: an operation is an interval, and each choice of a write for each read is tried. It starts the program once for
// each history.
//
//     registers all EVENTS PART PARTS -- COMMAND..       one part of all histories of EVENTS events, of two readers and the values 0 and 1
//     registers random COUNT SEED -- COMMAND..           random ones
//
// It prints counts, one per line: a name and a number.
#include <algorithm>
#include <climits>
#include <cstdint>
#include <cstdio>
#include <cstdlib>
#include <cstring>
#include <functional>
#include <map>
#include <optional>
#include <random>
#include <spawn.h>
#include <string>
#include <sys/mman.h>
#include <sys/wait.h>
#include <unistd.h>
#include <vector>

extern char** environ;
using Text = std::string;
using Number = uint64_t;

// --- histories

// An event: its side (0 is the writer, others are readers); whether it is a start or an end; the value that it writes or returns.
struct Event {
    int side;
    bool begins;
    Number value;
};
struct Register {
    Number first;
    std::optional<Number> values;
    bool is_cut;
};
constexpr int NEVER = INT_MAX;
constexpr size_t NAMED = 8;
struct Operation {
    int side, begin, end;
    Number value;
};
enum Class { SAFE, REGULAR, BY_READER, ATOMIC };
const char* const NAMES[] = {"safe", "regular", "atomic by reader", "atomic"};

// The operations in the lines up to `last`; the first value is a write that ended before the first line. A read that has not ended is left out.
struct History {
    std::vector<Operation> writes, reads;
    std::vector<int> begins; // the starts of all reads

    History(const Register& of, const std::vector<Event>& events, int last) {
        std::map<int, Operation> open;
        writes.push_back({0, 0, 0, of.first});
        for (size_t i = 0; i < events.size() && int(i) + 2 <= last; i++) {
            const Event& e = events[i];
            const int line = int(i) + 2;
            if (e.begins) {
                open[e.side] = {e.side, line, NEVER, e.value};
                if (e.side) begins.push_back(line);
                continue;
            }
            Operation o = open[e.side];
            open.erase(e.side);
            o.end = line;
            if (e.side) o.value = e.value;
            (e.side ? reads : writes).push_back(o);
        }
        if (open.count(0)) writes.push_back(open[0]);
    }
};

bool precedes(const Operation& a, const Operation& b) { return a.end < b.begin; }
bool overlap(const Operation& a, const Operation& b) { return !precedes(a, b) && !precedes(b, a); }

// The number of the last write that precedes a read.
size_t last_before(const History& h, const Operation& read) {
    size_t best = 0;
    for (size_t n = 0; n < h.writes.size(); n++) {
        if (precedes(h.writes[n], read) && h.writes[n].end >= h.writes[best].end) best = n;
    }
    return best;
}

size_t overlapping(const History& h, const Operation& read) {
    return size_t(std::count_if(h.writes.begin(), h.writes.end(), [&](const Operation& w) { return overlap(w, read); }));
}

// The numbers of the writes of its value that a read may be reading.
std::vector<size_t> may_be_of(const History& h, const Operation& read) {
    std::vector<size_t> found;
    for (size_t n = 0; n < h.writes.size(); n++) {
        const bool may = overlap(h.writes[n], read) || n == last_before(h, read);
        if (may && h.writes[n].value == read.value) found.push_back(n);
    }
    return found;
}

// Whether some choice of a write for each of these reads, inverting no two, is accepted; choices are tried until one is.
bool choice(const History& h, const std::vector<Operation>& reads, const std::function<bool(const std::vector<size_t>&)>& accepts) {
    std::vector<std::vector<size_t>> may;
    for (const Operation& read : reads) may.push_back(may_be_of(h, read));
    std::vector<size_t> chosen;
    std::function<bool()> go = [&]() -> bool {
        const size_t at = chosen.size();
        if (at == reads.size()) return accepts(chosen);
        for (size_t n : may[at]) {
            bool fits = true;
            for (size_t i = 0; i < at && fits; i++) {
                if (precedes(reads[i], reads[at]) && chosen[i] > n) fits = false;
                if (precedes(reads[at], reads[i]) && chosen[i] < n) fits = false;
            }
            if (!fits) continue;
            chosen.push_back(n);
            const bool found = go();
            chosen.pop_back();
            if (found) return true;
        }
        return false;
    };
    return go();
}

// The reads that must agree with one another: those of all readers (0), or of one.
std::vector<Operation> reads_of(const History& h, int reader) {
    std::vector<Operation> found;
    for (const Operation& read : h.reads) {
        if (!reader || read.side == reader) found.push_back(read);
    }
    return found;
}

bool has(const Register& of, const History& h, Class c) {
    const auto any = [](const std::vector<size_t>&) { return true; };
    switch (c) {
    case SAFE:
        for (const Operation& read : h.reads) {
            if (of.values && read.value >= *of.values) return false;
            if (!overlapping(h, read) && h.writes[last_before(h, read)].value != read.value) return false;
        }
        return true;
    case REGULAR: return std::all_of(h.reads.begin(), h.reads.end(), [&](const Operation& read) { return !may_be_of(h, read).empty(); });
    case BY_READER:
        for (int reader = 1; reader <= 64; reader++) {
            if (!choice(h, reads_of(h, reader), any)) return false;
        }
        return true;
    default: return choice(h, h.reads, any);
    }
}

// --- the expected words

Text str(Number n) { return std::to_string(n); }
Text name_of(int reader) { return "R" + std::to_string(reader); }

struct Link {
    Operation read;
    size_t number;
};

// The least number that a read, one of these, has in any choice for them; they have a choice.
size_t least_of(const History& h, const std::vector<Operation>& reads, size_t at) {
    size_t least = SIZE_MAX;
    choice(h, reads, [&](const std::vector<size_t>& chosen) {
        least = std::min(least, chosen[at]);
        return false;
    });
    return least;
}

// Among the reads that had ended before this line, the first to end of those that in every choice are of the latest write; none if that is the first value.
std::optional<Link> bound(const History& h, int reader, int line) {
    std::vector<Operation> reads;
    for (const Operation& read : reads_of(h, reader)) {
        if (read.end < line) reads.push_back(read);
    }
    std::optional<Link> best;
    for (size_t at = 0; at < reads.size(); at++) {
        const size_t least = least_of(h, reads, at);
        const bool is_better = best ? least > best->number || (least == best->number && reads[at].end < best->read.end) : least > 0;
        if (is_better) best = Link{reads[at], least};
    }
    return best;
}

// Those reads: each one after the first is there because the one before it could, judged by complete writes alone, be of an earlier write of its value.
std::vector<Link> chain(const History& h, int reader, int line) {
    std::vector<Link> links;
    for (std::optional<Link> next = bound(h, reader, line); next;) {
        links.push_back(*next);
        bool leans = false;
        for (size_t n : may_be_of(h, next->read)) leans = leans || n < next->number;
        next = leans ? bound(h, reader, next->read.begin) : std::nullopt;
    }
    return links;
}

Text reason(const Register& of, const std::vector<Event>& events, int line, Class c) {
    const History h(of, events, line), before(of, events, line - 1);
    const Operation read = *std::find_if(h.reads.begin(), h.reads.end(), [&](const Operation& r) { return r.end == line; });
    const Text got = name_of(read.side) + " got " + str(read.value);
    const size_t last = last_before(h, read);
    if (of.values && read.value >= *of.values) return got + ", which is no value of the register";
    if (!overlapping(h, read) && h.writes[last].value != read.value) {
        const Text since = last ? "since line " + std::to_string(h.writes[last].end) : "since the start";
        return got + ", but no write overlapped the read, and the register held " + str(h.writes[last].value) + " " + since;
    }
    if (may_be_of(h, read).empty()) return got + ", but neither the last write before the read nor one that overlapped it wrote " + str(read.value);
    const std::vector<Link> links = chain(before, c == BY_READER ? read.side : 0, read.begin);
    Text words = got + ", but a read of ";
    for (size_t i = 0; i < links.size() && i < NAMED; i++) {
        const Operation& it = links[i].read;
        const Text by = name_of(it.side) + " that ended at line " + std::to_string(it.end), written = std::to_string(before.writes[links[i].number].begin);
        words += i == 0 ? by + " gave the later value " + str(it.value) + ", of line " + written
                        : "; for the read of " + by + " can be of no write before that of line " + written;
    }
    return words + (links.size() > NAMED ? "; .." : "");
}

struct Options {
    Class least = ATOMIC;
    bool report = false, stop = false;
};
struct Answer {
    int status;
    Text printed, said;
    bool operator==(const Answer& other) const { return status == other.status && printed == other.printed && said == other.said; }
};

// The expected answer for a history in turn, and the line at which it lacks each class.
Answer judged(const Register& of, const std::vector<Event>& events, const Options& how, int (&line_of)[4]) {
    const History whole(of, events, NEVER);
    int best = -1;
    Text out;
    for (int c = SAFE; c <= ATOMIC; c++) {
        line_of[c] = NEVER;
        for (const Operation& read : whole.reads) {
            if (read.end < line_of[c] && !has(of, History(of, events, read.end), Class(c))) line_of[c] = read.end;
        }
        if (line_of[c] == NEVER) best = c;
    }
    out = best < 0 ? "not safe\n" : Text(NAMES[best]) + "\n";
    for (int c = SAFE; c <= ATOMIC; c++) {
        const int line = line_of[c];
        if (line == NEVER || (c == REGULAR && line == line_of[SAFE])) continue;
        if (c == BY_READER && (line == line_of[REGULAR] || line == line_of[ATOMIC])) continue;
        if (c == ATOMIC && line == line_of[REGULAR]) continue;
        out += Text("not ") + NAMES[c] + ": line " + std::to_string(line) + ": " + reason(of, events, line, Class(c)) + "\n";
    }
    if (how.report) {
        size_t one = 0, several = 0, could = 0;
        for (const Operation& read : whole.reads) {
            one += overlapping(whole, read) > 0;
            several += overlapping(whole, read) > 1;
        }
        for (int begin : whole.begins) {
            bool found = false;
            for (const Operation& write : whole.writes) {
                if (!(write.begin < begin && begin < write.end)) continue;
                for (const Operation& read : whole.reads) found = found || (write.begin < read.end && read.end < begin && read.value == write.value);
            }
            could += found;
        }
        out += "writes " + std::to_string(whole.writes.size() - 1) + "\nreads " + std::to_string(whole.reads.size()) + "\noverlapped " + std::to_string(one) +
               "\nby several " + std::to_string(several) + "\ncould invert " + std::to_string(could) + "\n";
        if (!could) out += "this recording cannot tell a regular register from an atomic one\n";
    }
    if (of.is_cut) out += "cut yes\n";
    return {best >= int(how.least) ? 0 : 3, out, ""};
}

// The line of the first event out of turn.
int out_of_turn(const std::vector<Event>& events) {
    std::map<int, bool> open;
    for (size_t i = 0; i < events.size(); i++) {
        if (open[events[i].side] == events[i].begins) return int(i) + 2;
        open[events[i].side] = events[i].begins;
    }
    return NEVER;
}

Answer expected(const Register& of, std::vector<Event> events, const Options& how, int (&line_of)[4]) {
    int bad = NEVER, turn = out_of_turn(events);
    for (size_t i = 0; i < events.size() && bad == NEVER; i++) {
        const Event& e = events[i];
        if (e.side == 0 && e.begins && of.values && e.value >= *of.values) bad = int(i) + 2;
    }
    if (how.stop) {
        int at = turn;
        for (int line = 2; line < std::min(turn, int(events.size()) + 2) && at == turn; line++) {
            if (!has(of, History(of, events, line), how.least)) at = line;
        }
        if (at < bad) {
            events.resize(size_t(at) - 1);
            bad = NEVER;
            if (at != turn) turn = NEVER;
        }
    }
    std::fill(line_of, line_of + 4, NEVER);
    if (bad != NEVER) return {1, "", "refused: register line " + std::to_string(bad) + " is not a line of the format"};
    if (turn != NEVER) return {3, "fault: line " + std::to_string(turn) + ": out of turn\n", ""};
    return judged(of, events, how, line_of);
}

// --- the meaning of what is printed: each read that a reason names is, in every choice for the history before, of the write that is named or
// of a later one; and the read at fault can only be of earlier ones.

bool is_true(const Register& of, const std::vector<Event>& events, const Text& words, int line, Class c) {
    const History h(of, events, line), before(of, events, line - 1);
    const Operation read = *std::find_if(h.reads.begin(), h.reads.end(), [&](const Operation& r) { return r.end == line; });
    const std::vector<Operation> reads = reads_of(before, c == BY_READER ? read.side : 0);
    if (!choice(before, reads, [](const std::vector<size_t>&) { return true; })) return false;
    size_t from = words.find("but a read of R");
    int links = 0;
    // (a link after the first is about reads that had ended when the one before it began)
    int begun = read.begin;
    while (from != Text::npos) {
        int side = 0, ended = 0, written = 0;
        Number value = 0;
        const char* at = words.c_str() + from;
        const bool is_first = links++ == 0;
        const bool parsed = is_first ? sscanf(at, "but a read of R%d that ended at line %d gave the later value %lu, of line %d", &side, &ended, &value, &written) == 4
                                     : sscanf(at, "for the read of R%d that ended at line %d can be of no write before that of line %d", &side, &ended, &written) == 3;
        if (!parsed) return false;
        size_t number = 0, place = SIZE_MAX;
        for (size_t n = 0; n < before.writes.size(); n++) {
            if (n > 0 && before.writes[n].begin == written) number = n;
        }
        for (size_t i = 0; i < reads.size(); i++) {
            if (reads[i].side == side && reads[i].end == ended) place = i;
        }
        if (number == 0 || place == SIZE_MAX || reads[place].end >= begun) return false;
        if (before.writes[number].value != reads[place].value) return false;
        if (choice(before, reads, [&](const std::vector<size_t>& chosen) { return chosen[place] < number; })) return false;
        if (is_first) {
            if (reads[place].value != value) return false;
            for (size_t n : may_be_of(h, read)) {
                if (n >= number) return false;
            }
        }
        begun = reads[place].begin;
        from = words.find("for the read of R", from + 1);
    }
    return links > 0;
}

// --- the program

std::vector<char*> command;

int memory_file(const Text& text) {
    const int file = memfd_create("text", 0);
    if (file < 0 || write(file, text.data(), text.size()) != ssize_t(text.size()) || lseek(file, 0, SEEK_SET) != 0) {
        perror("registers");
        exit(2);
    }
    return file;
}

Text content(int file) {
    Text text(size_t(lseek(file, 0, SEEK_END)), 0);
    if (pread(file, text.data(), text.size(), 0) != ssize_t(text.size())) exit(2);
    close(file);
    return text;
}

Answer answer(const Text& text, const Options& how) {
    static char flag[] = "--at-least", report[] = "--report", stop[] = "--stop";
    std::vector<char*> words = command;
    if (how.least != ATOMIC) {
        words.push_back(flag);
        words.push_back(const_cast<char*>(NAMES[how.least]));
    }
    if (how.report) words.push_back(report);
    if (how.stop) words.push_back(stop);
    words.push_back(nullptr);
    const int files[] = {memory_file(text), memory_file(""), memory_file("")};
    posix_spawn_file_actions_t actions;
    posix_spawn_file_actions_init(&actions);
    for (int i = 0; i < 3; i++) posix_spawn_file_actions_adddup2(&actions, files[i], i);
    pid_t child;
    if (posix_spawn(&child, words[0], &actions, nullptr, words.data(), environ) != 0) {
        perror(words[0]);
        exit(2);
    }
    posix_spawn_file_actions_destroy(&actions);
    int status = 0;
    waitpid(child, &status, 0);
    close(files[0]);
    const Text printed = content(files[1]), said = content(files[2]);
    return {WIFEXITED(status) ? WEXITSTATUS(status) : 128 + WTERMSIG(status), printed, said.substr(0, said.find('\n'))};
}

Text text_of(const Register& of, const std::vector<Event>& events) {
    Text text = (of.is_cut ? "cut register " : "register ") + str(of.first) + (of.values ? " " + str(*of.values) : "") + "\n";
    for (const Event& e : events) {
        text += e.side ? name_of(e.side) : "W";
        text += e.side ? (e.begins ? " read" : " got " + str(e.value)) : (e.begins ? " write " + str(e.value) : " wrote");
        text += "\n";
    }
    return text;
}

std::map<Text, uint64_t> counts;

void compare(const Register& of, const std::vector<Event>& events, const Options& how) {
    int line_of[4];
    const Text text = text_of(of, events);
    const Answer want = expected(of, events, how, line_of), got = answer(text, how);
    counts["histories"]++;
    Text first = (want.printed + want.said).substr(0, (want.printed + want.said).find('\n'));
    counts["said " + first.substr(0, first.find(':'))]++;
    bool good = got == want;
    for (int c = BY_READER; c <= ATOMIC && good; c++) {
        const Text head = Text("\nnot ") + NAMES[c] + ": line ";
        const size_t from = got.printed.find(head);
        if (line_of[c] == NEVER || from == Text::npos) continue;
        const Text words = got.printed.substr(from + 1, got.printed.find('\n', from + 1) - from - 1);
        if (words.find("but a read of R") == Text::npos) continue;
        good = is_true(of, events, words, line_of[c], Class(c));
        counts["inverted reasons"]++;
        const auto links = std::count(words.begin(), words.end(), ';');
        if (links) counts[links > 7 ? "reasons cut" : "reasons of several reads"]++;
    }
    if (good) return;
    if (counts["differ"]++ < 3) {
        fprintf(stderr, "registers: --at-least %s%s%s\n%sprinted, status %d: %s%s\nexpected, status %d: %s%s\n", NAMES[how.least], how.report ? " --report" : "", how.stop ? " --stop" : "",
                text.c_str(), got.status, got.printed.c_str(), got.said.c_str(), want.status, want.printed.c_str(), want.said.c_str());
    }
}

// --- the histories

// Each history of `count` events: every shorter one is a prefix of one, and its class follows from the lines that are printed.
void all(std::vector<Event>& events, std::vector<bool>& open, size_t count, uint64_t part, uint64_t parts, uint64_t& at) {
    if (events.size() == count) {
        if (at++ % parts == part) compare({0, 2, false}, events, {ATOMIC, true, false});
        return;
    }
    for (int side = 0; side <= 2; side++) {
        const bool begins = !open[size_t(side)], has_value = (side == 0) == begins;
        for (Number value = 0; value < (has_value ? 2 : 1); value++) {
            events.push_back({side, begins, value});
            open[size_t(side)] = begins;
            all(events, open, count, part, parts, at);
            open[size_t(side)] = !begins;
            events.pop_back();
        }
    }
}

void random_ones(uint64_t count, uint64_t seed) {
    std::mt19937_64 bits(seed);
    const auto below = [&](uint64_t n) { return bits() % n; };
    const auto in = [&](uint64_t a, uint64_t n) { return below(n) < a; };
    while (count--) {
        const bool is_long = in(1, 100), is_stray = !is_long && in(1, 25), is_seam = is_long || in(1, 4);
        const uint64_t readers = 1 + below(4), kinds = is_seam ? 2 : 1 + below(5), lies = in(3, 5) ? 0 : 1 + below(20);
        const uint64_t size = is_long ? 29 + 4 * below(5) : in(1, 2) ? 24 : is_seam ? 9 + 4 * below(4) : 1 + below(24);
        Register of = {below(kinds), std::nullopt, in(1, 10)};
        if (in(1, 2)) of.values = kinds;
        std::vector<Event> events;
        std::vector<Number> near = {of.first};
        std::vector<bool> open(5);
        for (uint64_t i = 0; i < size; i++) {
            // (at seams: R1 reads at each end of a write, of values that repeat)
            int side = in(1, 4) ? int(below(2)) : int(below(readers + 1));
            if (is_long || (is_seam && in(15, 16))) side = i == 2 || i + 2 >= size || (i > 0 && (events.back().side == 0) == events.back().begins);
            bool begins = !open[size_t(side)];
            if (is_stray && in(1, 12)) begins = !begins;
            Number value = 0;
            if (side == 0 && begins) {
                value = is_long || (is_seam && in(7, 8)) ? 1 - near.back() % 2 : below(kinds + (is_stray && in(1, 12)));
                near.push_back(value);
            } else if (side && !begins) {
                value = !is_long && in(lies, 100) ? below(kinds + 1) : is_seam && i + 1 == size ? 1 - near.back() % 2 : near[near.size() - 1 - below(std::min<uint64_t>(near.size(), is_long ? 1 : in(1, 6) ? 3 : is_seam && in(4, 5) ? 1 : 2))];
            }
            events.push_back({side, begins, value});
            open[size_t(side)] = begins;
        }
        const Class leasts[] = {ATOMIC, ATOMIC, REGULAR, SAFE};
        compare(of, events, {leasts[below(4)], in(1, 2), in(1, 4)});
    }
}

int main(int argc, char** argv) {
    const auto is_end = [](const char* word) { return strcmp(word, "--") == 0; };
    const int end = int(std::find_if(argv, argv + argc, is_end) - argv);
    if (argc < 4 || end == argc) return 2;
    command.assign(argv + end + 1, argv + argc);
    if (Text(argv[1]) == "all" && end == 5) {
        std::vector<Event> events;
        std::vector<bool> open(3);
        uint64_t at = 0;
        all(events, open, strtoull(argv[2], nullptr, 10), strtoull(argv[3], nullptr, 10), strtoull(argv[4], nullptr, 10), at);
    } else if (Text(argv[1]) == "random" && end == 4) {
        random_ones(strtoull(argv[2], nullptr, 10), strtoull(argv[3], nullptr, 10));
    } else {
        return 2;
    }
    for (const auto& [name, number] : counts) printf("%s %llu\n", name.c_str(), (unsigned long long)number);
}
