// ring_audit.hpp: ring_audit.h for C++17 and later: judges what a recorder has recorded, in a unit test of any framework.
//
//     ring_auditor audit;                                                           for any number of rounds
//     auto found = audit.lawful(rec, "queue 8");                                    after both threads are joined
//     EXPECT_TRUE(found) << found;                                                  GoogleTest
//     REQUIRE(found);                                                               Catch2
//     found.words()                                                                 `lawful`, or `fault: line 5: empty, but ..`
//
// It needs ring_audit.h, ring_calls.hpp and ring_calls.h beside it, and the library. A recording that is not lawful is written to the
// file that the environment variable RING_AUDIT_KEEP names.
#pragma once
#include "ring_audit.h"
#include "ring_calls.hpp"
#include <ostream>
#include <string>

// The finding for a recording: true if it is lawful.
class ring_audit_result {
    bool is_lawful;
    std::string said, shown;
    friend class ring_auditor;
    ring_audit_result(bool lawful, const char* words) : is_lawful(lawful), said(words) {}

public:
    explicit operator bool() const { return is_lawful; }
    // `lawful`, or the words of the first line that is not.
    const std::string& words() const { return said; }
    // The lines around that one and the one that contradicts it, as they are in the recording; none if it is lawful.
    const std::string& lines() const { return shown; }
    friend std::ostream& operator<<(std::ostream& out, const ring_audit_result& found) {
        return out << found.said << '\n' << found.shown;
    }
};

class ring_auditor {
    ring_audit audit = RING_AUDIT_NONE;

    // The lines around the one at fault; none if there is no memory for them, or on Windows no temporary file.
    std::string lines_shown(const ring_calls& rec, const char* head) const {
        std::string shown;
#ifdef _WIN32
        // (it has no open_memstream)
        if (FILE* out = std::tmpfile()) {
            ring_audit_show(&audit, &rec, head, out);
            std::rewind(out);
            for (int byte; (byte = std::fgetc(out)) != EOF;) shown += static_cast<char>(byte);
            std::fclose(out);
        }
#else
        char* text = nullptr;
        std::size_t size = 0;
        if (FILE* out = open_memstream(&text, &size)) {
            ring_audit_show(&audit, &rec, head, out);
            if (std::fclose(out) == 0) shown.assign(text, size);
            std::free(text);
        }
#endif
        return shown;
    }

public:
    ring_auditor() = default;
    ~ring_auditor() { ring_audit_free(&audit); }
    ring_auditor(const ring_auditor&) = delete;
    ring_auditor& operator=(const ring_auditor&) = delete;

    // Whether what a recorder has is lawful; head is the first line of the recording: "queue 8", "queue 1 512" or "queue". If it is, but has
    // no call, is cut, or no calls overlap, this is printed to stderr.
    ring_audit_result lawful(const ring_calls& rec, const char* head) {
        ring_audit_result found(ring_audit_judge(&audit, &rec, head) != 0, ring_audit_words(&audit));
        if (found) {
            ring_calls_tell(&rec);
            ring_audit_count(&audit);
            return found;
        }
        if (audit.found.line) found.shown = lines_shown(rec, head);
        ring_audit_keep(&rec, head);
        return found;
    }
    ring_audit_result lawful(const ring_calls_recorder& rec, const char* head) { return lawful(rec.calls(), head); }
};
