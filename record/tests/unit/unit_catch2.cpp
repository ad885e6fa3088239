// unit_catch2.cpp: unit.cpp by Catch2.
#define CATCH_CONFIG_MAIN
#include "rounds.hpp"
#include <catch2/catch.hpp>

TEST_CASE("the small ring is a queue") {
    ring_calls_recorder rec(1 << 10);
    ring_auditor audit;
    for (int i = 0; i < rounds; i++) {
        record_round(rec, false);
        REQUIRE(audit.lawful(rec, "queue 8"));
    }
}

TEST_CASE("its bug is found") {
    ring_calls_recorder rec(1 << 10);
    ring_auditor audit;
    int lawful = 0;
    for (; lawful < rounds; lawful++) {
        record_round(rec, true);
        if (!audit.lawful(rec, "queue 8")) break;
    }
    CHECK(lawful < rounds);
}
