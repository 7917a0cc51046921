// wanzoche.hpp: what is opened, devices, what blocks in words, journals and logs, audits and schedules.
#include "checks.hpp"

using wanzoche::errc;

static void openings() {
    std::error_code code;
    wanzoche::paths good(SLOT, code);
    CHECK(!code && good.declaration() == "resource slot cell operation deposit, remove path deposit; remove end end\n");
    wanzoche::paths bad("resource", code);
    CHECK(code == errc::unexpected && code.message() == "unexpected" && !bad.enter("deposit", code) && code == errc::closed);
    wanzoche::paths no_room(SLOT, wanzoche::options{0}, code);
    CHECK(code == errc::bad_room);
    wanzoche::options logs_nothing;
    logs_nothing.journal = false;
    logs_nothing.log = [](std::string_view) {};
    wanzoche::paths logged(SLOT, logs_nothing, code);
    CHECK(code == errc::no_journal);
    try {
        const wanzoche::paths slot("resource slot cell\noperation deposit, remove\npath deposit ; remoove end\nend\n");
        CHECK(false);
    } catch (const wanzoche::declaration_error &fault) {
        CHECK(fault.code() == errc::undeclared && fault.line() == 3 && fault.column() == 16);
        CHECK(std::string_view(fault.what()) == "undeclared in line 3, column 16: this isn't an operation of the path's resource\n"
                                                "path deposit ; remoove end\n               ^^^^^^^\n"
                                                "expected an operation that the resource declares\nnearest name: remove");
    }
    CHECK(wanzoche::explain(SLOT).empty() && wanzoche::explain("resource").find("declaration:1:9:") == 0);
}

static void devices() {
    wanzoche::paths all("resource c cell operation a path a end end resource q queue 1 operation b path b end end "
                        "resource t tally operation d path d end end");
    wanzoche::entry cell = all.enter("a"), queue = all.enter("b"), tally = all.enter("d");
    CHECK(cell.put(7) == 0 && cell.look() == 7 && queue.put(5) == 1 && queue.look() == 5 && tally.add(3) == 3 && tally.look() == 3);
    std::error_code code;
    CHECK(queue.put(6, code) == 0 && code == errc::full);
    CHECK(queue.take(code) == 5 && !code && queue.take(code) == 0 && code == errc::empty);
    CHECK(tally.add(UINT64_MAX, code) == 0 && code == errc::overflow);
    CHECK(cell.add(1, code) == 0 && code == errc::not_offered);
    try {
        (void)queue.take();
        CHECK(false);
    } catch (const wanzoche::error &fault) {
        CHECK(fault.code() == errc::empty && std::string_view(fault.what()) == "empty");
    }
    all.close();
    CHECK(cell.look(code) == 0 && code == errc::closed);
}

static void why() {
    wanzoche::paths pool("resource r cell operation a, b, c path { a : 2 } , b end path c end end");
    CHECK(!pool.why("a"));
    const std::string me = std::to_string(wanzoche::thread_number());
    wanzoche::entry one = pool.enter("a"), two = pool.enter("a"), other = pool.enter("c");
    const auto found = pool.why(pool.op("b"));
    CHECK(found && found->operation == "b" && found->path == 0 && found->resource == "r" && found->text == "{ a : 2 } , b");
    CHECK(found && found->in_progress.size() == 2 && found->in_progress[1].token == two.token() && found->may_begin.empty());
    CHECK(found && found->words() ==
          "b is blocked: path 0 of r: { a : 2 } , b; in progress: a by thread " + me + ", a by thread " + me);
    std::uint32_t others = 0;
    std::thread([&] { others = wanzoche::thread_number(); }).join();
    CHECK(others != 0 && others != wanzoche::thread_number());
    std::error_code code;
    CHECK(!pool.why("nobody", code) && code == errc::unknown_operation);
}

static void journals() {
    std::string log;
    wanzoche::options small;
    small.room = 5;
    small.log = [&](std::string_view lines) { log += lines; };
    wanzoche::paths slot(SLOT, small);
    for (int n = 0; n < 200; n++) (void)slot.enter(n % 2 != 0 ? "remove" : "deposit").look();
    slot.rotate();
    CHECK(slot.journal().empty() && std::count(log.begin(), log.end(), '\n') == 600 && slot.audit(log));
    const auto forged = wanzoche::audit(SLOT, "1 start deposit: started 0\n2 start remove: started 1\n");
    CHECK(!forged && forged.wrong_line == 1U);
    std::error_code code;
    CHECK(slot.audit("hm\n", code) && code == errc::bad_line);
    (void)wanzoche::audit("resource", "", 9, code);
    CHECK(code == errc::unexpected);
    wanzoche::options unkept;
    unkept.journal = false;
    wanzoche::paths bare(SLOT, unkept);
    CHECK(bare.enter("deposit") && bare.journal(code).empty() && code == errc::no_journal);
    bare.rotate(code);
    CHECK(!code && bare.report() == "startable remove\nblocked deposit 0\nfrozen no\n");
    unkept.room = 2;
    wanzoche::paths one(BOOK, unkept);
    const wanzoche::entry reading = one.enter("read");
    CHECK(!one.try_enter("read", code) && code == errc::no_room);
}

static void schedules() {
    constexpr char locks[] = "resource a cell operation left path left end end resource b cell operation right path right end end";
    constexpr char crosswise[] = "process kant\nenter left\nenter right\nleave\nleave\nend\n"
                                 "process hume\nenter right\nenter left\nleave\nleave\nend\n";
    const auto found = wanzoche::explore(locks, crosswise);
    CHECK(!found && found.found == wanzoche::outcome::stalls && found.processes == "kant: stalled right\nhume: stalled left\n");
    CHECK(found.journal == "journal 2 room 1048576\n0 start left: started 0\n1 start right: started 1\n"
                           "0 start right: blocked 1\n1 start left: blocked 0\n");
    const auto fine = wanzoche::explore(locks, "process kant\nenter left\nleave\nend\n");
    CHECK(fine && fine.states > 0 && fine.journal.empty());
    std::error_code code;
    CHECK(wanzoche::explore(locks, crosswise, 1, code).found == wanzoche::outcome::undecided && !code);
    CHECK(!wanzoche::explore(locks, "hm\n", 9, code) && code == errc::script_bad_line);
    try {
        (void)wanzoche::explore(locks, "process kant\nenter middle\nleave\nend\n");
        CHECK(false);
    } catch (const wanzoche::error &fault) {
        CHECK(std::string_view(fault.what()) == "script: undeclared in line 1");
    }
}

static void codes() {
    const std::error_code none(0, wanzoche::category()), blocked = errc::blocked, memory = errc::out_of_memory;
    CHECK(!none && blocked == errc::blocked && blocked != errc::full && std::string_view(blocked.category().name()) == "wanzoche");
    CHECK(memory == std::errc::not_enough_memory && blocked == std::errc::timed_out && blocked.message() == "blocked");
    CHECK(std::error_code(errc::closed) && std::error_code(errc::closed).message() == "closed");
}

int main() {
    openings();
    devices();
    why();
    journals();
    schedules();
    codes();
    std::printf("texts: %d failures\n", failures.load());
    return failures != 0;
}
