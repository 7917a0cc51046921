// wanzoche.hpp under -fno-exceptions: each call has a form with a code.
// flags: -fno-exceptions
#include "checks.hpp"

int main() {
    std::error_code code;
    wanzoche::paths slot(SLOT, code);
    const wanzoche::operation deposit = slot.op("deposit", code);
    CHECK(!code);
    wanzoche::entry now = slot.enter(deposit, code);
    CHECK(now && now.put(7, code) == 0 && !code);
    CHECK(!slot.try_enter("remove", code) && !code);
    CHECK(!slot.enter_for("remove", std::chrono::milliseconds(1), code) && code == wanzoche::errc::blocked);
    CHECK(!slot.enter_until("remove", std::chrono::steady_clock::now(), code) && code == wanzoche::errc::blocked);
    CHECK(!slot.try_enter_for("remove", std::chrono::seconds(0), code) && !code);
    CHECK(!slot.try_enter_until("remove", std::chrono::steady_clock::now(), code) && !code);
    const auto why = slot.why("remove", code);
    CHECK(why && why->words().find("remove is blocked: path 0 of slot") == 0);
    now.leave();
    CHECK(slot.enter("remove", code).take(code) == 0 && code == wanzoche::errc::not_offered);
    CHECK(slot.waiting("remove", code) == 0 && !slot.report(code).empty() && slot.audit(slot.journal(code), code) && !code);
    CHECK(wanzoche::audit(SLOT, "1 start deposit: started 0\n", 64, code));
    CHECK(wanzoche::explore(SLOT, "process p\nenter deposit\nleave\nend\n", 99, code));
    slot.rotate(code);
    slot.close();
    CHECK(!slot.enter(deposit, code) && code == wanzoche::errc::closed);
    std::printf("without exceptions: %d failures\n", failures.load());
    return failures != 0;
}
