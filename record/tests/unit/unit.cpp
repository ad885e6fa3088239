// unit.cpp: a unit test of a small ring with GoogleTest: it is a queue in each of 10,000 rounds, and with its bug it is not.
#include "rounds.hpp"
#include <gtest/gtest.h>

TEST(SmallRing, IsAQueue) {
    ring_calls_recorder rec(1 << 10);
    ring_auditor audit;
    for (int i = 0; i < rounds; i++) {
        record_round(rec, false);
        auto found = audit.lawful(rec, "queue 8");
        ASSERT_TRUE(found) << found;
    }
}

TEST(SmallRing, ItsBugIsFound) {
    ring_calls_recorder rec(1 << 10);
    ring_auditor audit;
    for (int i = 0; i < rounds; i++) {
        record_round(rec, true);
        auto found = audit.lawful(rec, "queue 8");
        if (found) continue;
        EXPECT_EQ(found.words().substr(0, 12), "fault: line ") << found;
        return;
    }
    FAIL() << "each of the rounds with the bug is lawful";
}

TEST(Audit, TellsThatThereIsNoCall) {
    ring_calls_recorder rec(1 << 10);
    testing::internal::CaptureStderr();
    EXPECT_TRUE(ring_auditor().lawful(rec, "queue 8"));
    EXPECT_EQ(testing::internal::GetCapturedStderr(), "ring_calls: no call was recorded: was ring_calls_init called, and were both threads joined?\n");
}

TEST(Audit, TellsTheLines) {
    ring_calls_recorder rec(1 << 10);
    rec.put(12, [] { return true; });
    rec.take([](auto tell) { tell.empty(); });
    auto found = ring_auditor().lawful(rec, "queue 8");
    EXPECT_FALSE(found);
    EXPECT_EQ(found.words(), "fault: line 5: empty, but item 12 was inside since line 3");
    EXPECT_EQ(found.lines(), "       1  queue 8\n       2  P put 12\n>      3  P stored\n       4  C take\n>      5  C empty\n");
}
