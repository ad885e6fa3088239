// axioms.cpp: for compare.py: the outcomes of litmus tests that the axioms of C++20 permit. Reads tests, one to a line, as litmus.c does, and prints the
// outcomes of each in the words of explore, then a line with a dot. It shares nothing with the explorer: it makes every choice of what each load reads
// and of an order of modification for each place, and asks the axioms of it.
//   axioms 20     [atomics.order] and [intro.races] of C++20, except as noted next
//   axioms 11     the same with release sequences of C++11 to C++17, which stores of the same thread continue
//   axioms rc11   the axioms of RC11 (Lahav and others, 2017), which are the stronger ones of seq_cst
// In all of them no cycle of program order and reads-from is permitted: C++20 has no axiom against it, and only requires that no value appears out of thin air.
#include <algorithm>
#include <array>
#include <cstdio>
#include <cstdlib>
#include <cstring>
#include <iostream>
#include <set>
#include <sstream>
#include <string>
#include <vector>

namespace {

enum order_t { RELAXED, CONSUME, ACQUIRE, RELEASE, ACQ_REL, SEQ_CST };
enum { PLACES = 3, MOST = 24, FIRST = -1 };

// An operation of the text, and what an execution makes of it. A compare-and-swap that fails is a load, of its other order.
struct event {
    int thread = FIRST, number = 0, place = -1;
    char kind = 'I';                        // I: the first value; W R X A C F as in litmus.c
    long value = 0, wanted = 0, had = 0, stored = 0;
    int order = RELAXED, text_order = RELAXED, failure = RELAXED;
    bool reads = false, writes = false;
    bool is_fence() const { return kind == 'F'; }
    bool acquires() const { return order == ACQUIRE || order == ACQ_REL || order == SEQ_CST || order == CONSUME; }
    bool releases() const { return order == RELEASE || order == ACQ_REL || order == SEQ_CST; }
    bool is_sc() const { return thread != FIRST && order == SEQ_CST; }
};

std::string model;
std::vector<event> events;
std::vector<int> reads_from;                // of each event that reads, the write
std::vector<std::vector<int>> modified(PLACES);   // of each place, its writes in the order of modification
std::set<std::string> outcomes;

int count() { return static_cast<int>(events.size()); }

// A relation on events.
struct relation {
    std::array<std::array<bool, MOST>, MOST> has{};
    std::array<bool, MOST>& operator[](int i) { return has[i]; }
    const std::array<bool, MOST>& operator[](int i) const { return has[i]; }
};

relation united(const relation& a, const relation& b) {
    relation r = a;
    for (int i = 0; i < count(); i++) for (int j = 0; j < count(); j++) r[i][j] = a[i][j] || b[i][j];
    return r;
}

relation then(const relation& a, const relation& b) {
    relation r;
    for (int i = 0; i < count(); i++) for (int k = 0; k < count(); k++) if (a[i][k]) for (int j = 0; j < count(); j++) if (b[k][j]) r[i][j] = true;
    return r;
}

relation closed(relation r) {
    for (int k = 0; k < count(); k++) for (int i = 0; i < count(); i++) if (r[i][k]) for (int j = 0; j < count(); j++) if (r[k][j]) r[i][j] = true;
    return r;
}

bool is_irreflexive(const relation& r) {
    for (int i = 0; i < count(); i++) if (r[i][i]) return false;
    return true;
}

// The orders that an execution itself determines.
struct execution {
    relation program, from, modification, before, communication;    // before: a load comes before a write that is newer than the one it reads
    std::vector<int> at;                                            // the place of a write in its order of modification

    execution() : at(events.size(), 0) {
        for (int i = 0; i < count(); i++) for (int j = 0; j < count(); j++) {
            const event &a = events[i], &b = events[j];
            program[i][j] = (a.thread == FIRST && b.thread != FIRST) || (a.thread != FIRST && a.thread == b.thread && a.number < b.number);
            from[i][j] = b.reads && reads_from[j] == i;
        }
        for (const auto& writes : modified) for (size_t i = 0; i < writes.size(); i++) {
            at[writes[i]] = static_cast<int>(i);
            for (size_t j = i + 1; j < writes.size(); j++) modification[writes[i]][writes[j]] = true;
        }
        for (int i = 0; i < count(); i++) {
            if (!events[i].reads) continue;
            for (int w : modified[events[i].place]) before[i][w] = w != i && at[w] > at[reads_from[i]];
        }
        communication = closed(united(united(from, modification), before));
    }
};

// A read-modify-write reads the write directly before its own.
bool is_atomic(const execution& x) {
    for (int i = 0; i < count(); i++) {
        if (events[i].reads && events[i].writes && x.at[i] != x.at[reads_from[i]] + 1) return false;
    }
    return true;
}

// The writes of the release sequence that a write heads, itself among them.
std::set<int> sequence_of(const execution& x, int head) {
    std::set<int> found = { head };
    const auto& writes = modified[events[head].place];
    const auto is_own = [&](int w) { return events[w].thread == events[head].thread && events[head].thread != FIRST; };
    if (model == "rc11") {
        for (int w : writes) if (x.program[head][w] && is_own(w)) found.insert(w);
        for (bool more = true; more;) {
            more = false;
            for (int w : writes) if (events[w].reads && found.count(reads_from[w]) && found.insert(w).second) more = true;
        }
        return found;
    }
    for (size_t i = x.at[head] + 1; i < writes.size(); i++) {
        if (!events[writes[i]].reads && !(model == "11" && is_own(writes[i]))) break;
        found.insert(writes[i]);
    }
    return found;
}

// Whether a heads a release: it is the write, or a fence before it.
bool heads(const execution& x, int a, int write) {
    if (!events[a].releases() || events[a].thread == FIRST) return false;
    return a == write ? events[write].writes : events[a].is_fence() && events[write].writes && x.program[a][write];
}

bool tails(const execution& x, int read, int b) {
    return events[b].acquires() && (b == read || (events[b].is_fence() && x.program[read][b]));
}

relation synchronizes(const execution& x) {
    relation r;
    for (int w = 0; w < count(); w++) {
        if (!events[w].writes) continue;
        const std::set<int> sequence = sequence_of(x, w);
        for (int read = 0; read < count(); read++) {
            if (!events[read].reads || !sequence.count(reads_from[read])) continue;
            for (int a = 0; a < count(); a++) for (int b = 0; b < count(); b++) {
                if (a != b && heads(x, a, w) && tails(x, read, b)) r[a][b] = true;
            }
        }
    }
    return r;
}

// What the one order S of seq_cst has to keep, in C++20: A before B if A comes before B by coherence, or a fence before A does; and what is strongly
// happens-before.
relation order_of_sc(const execution& x, const relation& happens, const relation& synchronized) {
    relation strongly = united(x.program, then(then(x.program, happens), x.program)), s;
    for (int i = 0; i < count(); i++) for (int j = 0; j < count(); j++) {
        if (synchronized[i][j] && events[i].is_sc() && events[j].is_sc()) strongly[i][j] = true;
    }
    strongly = closed(strongly);
    for (int i = 0; i < count(); i++) for (int j = 0; j < count(); j++) {
        if (!events[i].is_sc() || !events[j].is_sc()) continue;
        s[i][j] = strongly[i][j];
        for (int a = 0; a < count(); a++) for (int b = 0; b < count(); b++) {
            const bool begins = i == a || (events[i].is_fence() && happens[i][a]), ends = j == b || (events[j].is_fence() && happens[b][j]);
            if (x.communication[a][b] && begins && ends) s[i][j] = true;
        }
    }
    return s;
}

// The same in RC11: psc.
relation order_of_sc_rc11(const execution& x, const relation& happens) {
    relation other_place, same_place, left, right;
    for (int i = 0; i < count(); i++) for (int j = 0; j < count(); j++) {
        const bool same = !events[i].is_fence() && events[i].place == events[j].place && !events[j].is_fence();
        other_place[i][j] = x.program[i][j] && !same;
        same_place[i][j] = happens[i][j] && same;
        left[i][j] = (i == j && events[i].is_sc()) || (events[i].is_sc() && events[i].is_fence() && happens[i][j]);
        right[i][j] = (i == j && events[j].is_sc()) || (events[j].is_sc() && events[j].is_fence() && happens[i][j]);
    }
    const relation base = united(united(x.program, then(then(other_place, happens), other_place)), united(same_place, united(x.modification, x.before)));
    relation s = then(then(left, base), right);
    const relation of_fences = united(happens, then(then(happens, x.communication), happens));
    for (int i = 0; i < count(); i++) for (int j = 0; j < count(); j++) {
        if (of_fences[i][j] && events[i].is_sc() && events[j].is_sc() && events[i].is_fence() && events[j].is_fence()) s[i][j] = true;
    }
    return s;
}

bool is_permitted(const execution& x) {
    if (!is_atomic(x) || !is_irreflexive(x.communication)) return false;
    const relation synchronized = synchronizes(x), happens = closed(united(x.program, synchronized));
    if (!is_irreflexive(happens) || !is_irreflexive(then(happens, x.communication))) return false;
    return is_irreflexive(closed(model == "rc11" ? order_of_sc_rc11(x, happens) : order_of_sc(x, happens, synchronized)));
}

// The outcome in the words of explore: what each side's loads had, and the last values.
void add_outcome() {
    std::string text = "outcome:";
    for (int thread = 0; thread < 2; thread++) {
        bool any = false;
        for (const event& it : events) {
            if (it.thread != thread || !it.reads) continue;
            if (!any) text += thread == 0 ? " P" : " C";
            any = true;
            text += " " + std::to_string(it.had);
        }
    }
    text += " end";
    for (const auto& writes : modified) text += " " + std::to_string(events[writes.back()].stored);
    outcomes.insert(text);
}

// Every order of modification, from this place on. (Those that go against the program are not coherent.)
void choose_orders(int place) {
    if (place == PLACES) {
        if (is_permitted(execution())) add_outcome();
        return;
    }
    std::vector<int> writes;
    for (int i = 0; i < count(); i++) if (events[i].writes && events[i].place == place && events[i].thread != FIRST) writes.push_back(i);
    do {
        modified[place] = { place };
        modified[place].insert(modified[place].end(), writes.begin(), writes.end());
        choose_orders(place + 1);
    } while (std::next_permutation(writes.begin(), writes.end()));
}

void take_value(event& it, int i) {
    if (it.reads) it.had = events[reads_from[i]].stored;
    it.order = it.text_order;
    if (it.kind == 'W' || it.kind == 'X') it.stored = it.value;
    if (it.kind == 'A') it.stored = it.had + it.value;
    if (it.kind != 'C') return;
    it.writes = it.had == it.value;
    it.stored = it.wanted;
    if (!it.writes) it.order = it.failure;
}

// The values of all, now that it is chosen what each load reads, in an order of the program and of that. False if there is none, or if a load reads a
// compare-and-swap that fails.
bool take_values() {
    relation r;
    for (int i = 0; i < count(); i++) for (int j = 0; j < count(); j++) {
        r[i][j] = (events[i].thread != FIRST && events[i].thread == events[j].thread && events[i].number < events[j].number) || (events[j].reads && reads_from[j] == i);
    }
    if (!is_irreflexive(closed(r))) return false;
    std::vector<bool> done(events.size(), false);
    for (int n = 0; n < count();) for (int i = 0; i < count(); i++) {
        bool ready = !done[i];
        for (int k = 0; k < count(); k++) if (r[k][i] && !done[k]) ready = false;
        if (!ready) continue;
        if (events[i].reads && !events[reads_from[i]].writes) return false;
        take_value(events[i], i);
        done[i] = true;
        n++;
    }
    for (int i = 0; i < count(); i++) if (events[i].reads && !events[reads_from[i]].writes) return false;
    return true;
}

// Every write that each load may read, from this event on.
void choose_reads(int i) {
    while (i < count() && !events[i].reads) i++;
    if (i == count()) {
        for (event& it : events) if (it.kind == 'C') it.writes = true;
        if (take_values()) choose_orders(0);
        return;
    }
    for (int w = 0; w < count(); w++) {
        if (w == i || events[w].place != events[i].place || !strchr("IWXAC", events[w].kind)) continue;
        reads_from[i] = w;
        choose_reads(i + 1);
    }
}

int order_named(const char* text) {
    static const char* const names[] = { "rlx", "con", "acq", "rel", "arl", "sco" };
    for (int i = 0; i < 6; i++) if (strncmp(text, names[i], 3) == 0) return i;
    fprintf(stderr, "axioms: %s is no order\n", text);
    exit(2);
}

event event_of(const std::string& word, int thread, int number) {
    event it;
    const char* at = word.c_str();
    it.thread = thread;
    it.number = number;
    it.kind = *at++;
    if (!it.is_fence()) it.place = *at++ - 'x';
    if (strchr("WXAC", it.kind)) it.value = *at++ - '0';
    if (it.kind == 'C') it.wanted = *at++ - '0';
    it.order = it.text_order = order_named(at);
    if (it.kind == 'C') it.failure = order_named(at + 3);
    it.reads = strchr("RXAC", it.kind) != nullptr;
    it.writes = strchr("WXAC", it.kind) != nullptr;
    return it;
}

void read_test(const std::string& line) {
    events.clear();
    outcomes.clear();
    for (int place = 0; place < PLACES; place++) {
        event first;
        first.place = place;
        first.writes = true;
        events.push_back(first);
    }
    std::istringstream words(line);
    int thread = 0, number = 0;
    for (std::string word; words >> word;) {
        if (word == "|") thread = 1;
        else events.push_back(event_of(word, thread, number++));
    }
    reads_from.assign(events.size(), -1);
}

}

int main(int argc, char** argv) {
    model = argc > 1 ? argv[1] : "20";
    for (std::string line; std::getline(std::cin, line);) {
        read_test(line);
        choose_reads(0);
        for (const std::string& it : outcomes) puts(it.c_str());
        puts(".");
        fflush(stdout);
    }
}
