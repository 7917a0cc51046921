/// The class wanzoche::paths. For wanzoche.hpp, which is what programs include.
#ifndef WANZOCHE_PATHS_HPP
#define WANZOCHE_PATHS_HPP

namespace wanzoche {

/// An operation, or its name, which is looked up then: what calls of paths take.
class wanted {
public:
    wanted(operation known) noexcept : known_(known), is_known_(true) {}
    wanted(std::string_view name) noexcept : name_(name) {}
    wanted(const char *name) noexcept : name_(name) {}
    wanted(const std::string &name) noexcept : name_(name) {}

private:
    friend class paths;
    friend wanted with_priority(wanted what, std::uint32_t priority) noexcept;
    operation known_;
    bool is_known_ = false;
    std::uint32_t priority_ = 0;
    std::string_view name_;
};

/// The same operation for one call, `paths.enter(with_priority(op, 2))`: among those who wait it stands before those of a lower priority.
/// Else the priority is 0.
[[nodiscard]] inline wanted with_priority(wanted what, std::uint32_t priority) noexcept {
    what.priority_ = priority;
    return what;
}

/// The paths of a declaration, or none: those that are closed. They can be moved while no other thread uses them, and not copied.
class paths {
public:
    /// Closed paths.
    paths() noexcept = default;
    paths(paths &&) noexcept = default;
    paths &operator=(paths &&) noexcept = default;
    paths(const paths &) = delete;
    paths &operator=(const paths &) = delete;
    /// Closes them. No call of another thread may be in them any more.
    ~paths() = default;

    /// Opens paths. Takes all memory now. Codes are those of texts that are no declaration, bad_room, no_journal for a log without a
    /// journal, and out_of_memory; then the paths are closed.
    paths(std::string_view declaration, options settings, std::error_code &code) {
        code = open(declaration, std::move(settings)).code;
    }
    paths(std::string_view declaration, std::error_code &code) : paths(declaration, options{}, code) {}

    /// Ends what is in progress, and releases who waits with errc::closed, as each later call has it. Any thread may call it, at any time.
    void close() noexcept {
        if (state_ != nullptr) wanzoche_monitor_close(&state_->monitor);
    }

    /// The operation with this name. The code is unknown_operation, or closed. Looks through the names, without the lock.
    operation op(std::string_view name, std::error_code &code) const { return resolved(name, code); }

    /// Begins an operation when the paths admit it: an entry, which is in progress. Codes of this and the next calls are unknown_operation,
    /// foreign_operation, no_room, out_of_memory and closed. Allocates only where a log gets lines, where more wait or are in progress than
    /// ever before, and once for the first that waits longer than the patience.
    [[nodiscard]] entry enter(wanted what, std::error_code &code) { return given(attempt(what, -1), code); }

    /// The same within a limit from the call, or until a time of a clock. If it is over the code is blocked, or withheld where no path
    /// forbids the operation, but one that waits comes before.
    template <typename Number, typename Period>
    [[nodiscard]] entry enter_for(wanted what, std::chrono::duration<Number, Period> limit, std::error_code &code) {
        return given(attempt(what, detail::milliseconds_of(limit)), code);
    }
    template <typename Clock, typename Duration>
    [[nodiscard]] entry enter_until(wanted what, std::chrono::time_point<Clock, Duration> until, std::error_code &code) {
        return given(attempt_until(what, until), code);
    }

    /// Begins an operation if the paths admit it now, within a limit, or until a time. Else the entry is empty, which is no fault. None of
    /// these goes past those who wait.
    [[nodiscard]] entry try_enter(wanted what, std::error_code &code) { return unless_blocked(attempt(what, 0), code); }
    template <typename Number, typename Period>
    [[nodiscard]] entry try_enter_for(wanted what, std::chrono::duration<Number, Period> limit, std::error_code &code) {
        return unless_blocked(attempt(what, detail::milliseconds_of(limit)), code);
    }
    template <typename Clock, typename Duration>
    [[nodiscard]] entry try_enter_until(wanted what, std::chrono::time_point<Clock, Duration> until, std::error_code &code) {
        return unless_blocked(attempt_until(what, until), code);
    }

    /// What forbids an operation now, or for whom it is withheld, or nothing. `words()` says it to people.
    [[nodiscard]] std::optional<blockage> why(wanted what, std::error_code &code) const {
        const operation op = resolved(what, code);
        if (code) return std::nullopt;
        const detail::locked here(state_->monitor);
        wanzoche_waiting ahead;
        const wanzoche_answer answer = wanzoche_judge_now(&state_->monitor, op.number_, what.priority_, &ahead);
        if (answer.code == WANZOCHE_BLOCKED) return blockage_of(op.number_, answer.number);
        if (answer.code == WANZOCHE_WITHHELD) return blockage_behind(op.number_, ahead);
        if (answer.code != WANZOCHE_CAN_START) code = detail::code_of(answer.code);
        return std::nullopt;
    }

    /// How many threads wait until they may begin an operation.
    [[nodiscard]] unsigned waiting(wanted what, std::error_code &code) const {
        const operation op = resolved(what, code);
        if (code) return 0;
        const detail::locked here(state_->monitor);
        return state_->monitor.queues[op.number_];
    }

    /// Those who wait, in the order in which they come, with since when. The code may be closed.
    [[nodiscard]] std::vector<waiter> waiting(std::error_code &code) const {
        code.clear();
        if (state_ == nullptr) return code = make_error_code(errc::closed), std::vector<waiter>{};
        std::vector<wanzoche_waiting> list;
        for (std::size_t number = 1; number > list.size();) {
            list.resize(number);
            number = wanzoche_monitor_waiting(&state_->monitor, list.data(), list.size());
            if (number <= list.size()) list.resize(number);
        }
        std::vector<waiter> told;
        for (const wanzoche_waiting &each : list) told.push_back(waiter_of(each));
        return told;
    }

    /// What can begin, which path forbids what, what is in progress, and whether all is over, in lines for programs.
    [[nodiscard]] std::string report(std::error_code &code) const {
        return told(code, [this](char *buffer, std::size_t size) { return wanzoche_monitor_report(&state_->monitor, buffer, size); });
    }

    /// The lines that the log hasn't got yet. The code may be no_journal.
    [[nodiscard]] std::string journal(std::error_code &code) const {
        return told(code, [this](char *buffer, std::size_t size) { return wanzoche_monitor_journal(&state_->monitor, buffer, size); });
    }

    /// Hands the lines to the log, and begins a new journal.
    void rotate(std::error_code &code) {
        code.clear();
        const wanzoche_answer answer = wanzoche_monitor_rotate(state_ == nullptr ? nullptr : &state_->monitor);
        if (answer.code != WANZOCHE_ROTATED) code = detail::code_of(answer.code);
    }

    /// Audits a journal under the declaration of these paths, as wanzoche::audit.
    [[nodiscard]] verdict audit(std::string_view journal, std::error_code &code) const {
        if (state_ == nullptr) return code = make_error_code(errc::closed), verdict{};
        return wanzoche::audit(state_->declaration.text(), journal, WANZOCHE_MOST_LINES, code);
    }

    /// The declaration as the library prints it, in a line; empty if the paths were never opened.
    [[nodiscard]] std::string declaration() const { return state_ == nullptr ? std::string() : state_->declaration.text(); }

#if WANZOCHE_THROWS
    /// The same calls, which throw. Opening throws declaration_error, a name that isn't declared unknown_operation_error, a limit that is
    /// over blocked_error, closed paths closed_error, want of memory std::bad_alloc, and all else error.
    explicit paths(std::string_view declaration, options settings = {}) {
        const detail::refusal why = open(declaration, std::move(settings));
        if (why.code) detail::throw_refusal(declaration, why);
    }
    [[nodiscard]] operation op(std::string_view name) const {
        return thrown(name, [&](std::error_code &code) { return op(name, code); });
    }
    [[nodiscard]] entry enter(wanted what) { return given(attempt(what, -1), what, -1); }
    template <typename Number, typename Period>
    [[nodiscard]] entry enter_for(wanted what, std::chrono::duration<Number, Period> limit) {
        const std::int64_t milliseconds = detail::milliseconds_of(limit);
        wanzoche_waiting ahead;
        return given(attempt(what, milliseconds, &ahead), what, milliseconds, &ahead);
    }
    template <typename Clock, typename Duration>
    [[nodiscard]] entry enter_until(wanted what, std::chrono::time_point<Clock, Duration> until) {
        const std::int64_t milliseconds = detail::milliseconds_until(until);
        wanzoche_waiting ahead;
        return given(attempt_until(what, until, &ahead), what, milliseconds, &ahead);
    }
    [[nodiscard]] entry try_enter(wanted what) {
        return thrown(what, [&](std::error_code &code) { return try_enter(what, code); });
    }
    template <typename Number, typename Period>
    [[nodiscard]] entry try_enter_for(wanted what, std::chrono::duration<Number, Period> limit) {
        return thrown(what, [&](std::error_code &code) { return try_enter_for(what, limit, code); });
    }
    template <typename Clock, typename Duration>
    [[nodiscard]] entry try_enter_until(wanted what, std::chrono::time_point<Clock, Duration> until) {
        return thrown(what, [&](std::error_code &code) { return try_enter_until(what, until, code); });
    }
    [[nodiscard]] std::optional<blockage> why(wanted what) const {
        return thrown(what, [&](std::error_code &code) { return why(what, code); });
    }
    [[nodiscard]] unsigned waiting(wanted what) const {
        return thrown(what, [&](std::error_code &code) { return waiting(what, code); });
    }
    [[nodiscard]] std::vector<waiter> waiting() const {
        return thrown([this](std::error_code &code) { return waiting(code); });
    }
    [[nodiscard]] std::string report() const {
        return thrown([this](std::error_code &code) { return report(code); });
    }
    [[nodiscard]] std::string journal() const {
        return thrown([this](std::error_code &code) { return journal(code); });
    }
    void rotate() {
        (void)thrown([this](std::error_code &code) { return rotate(code), 0; });
    }
    [[nodiscard]] verdict audit(std::string_view journal) const {
        if (state_ == nullptr) throw closed_error();
        return wanzoche::audit(state_->declaration.text(), journal);
    }
#endif

private:
    /// What an attempt came to: an entry of a thread with this token, or a fault, with the path that forbids the operation if it is
    /// blocked. A std::error_code would cost two calls of the standard library.
    struct attempted {
        errc fault{};
        std::uint32_t thread = 0;
        std::uint64_t number = 0;

        bool is_over() const noexcept { return fault == errc::blocked || fault == errc::withheld; }
    };

    /// Opens these paths, which are closed. Says why it doesn't.
    detail::refusal open(std::string_view text, options settings) {
        if (settings.log && !settings.journal) return {make_error_code(errc::no_journal), 0, "a log gets the lines of a journal"};
        auto made = std::make_unique<detail::state>();
        char words[WANZOCHE_MESSAGE];
        const auto opens = settings.journal ? wanzoche_monitor_open : wanzoche_monitor_open_without_journal;
        const wanzoche_answer answer = opens(&made->monitor, text.data(), text.size(), settings.room, words, sizeof words);
        if (answer.code != WANZOCHE_OPENED) return detail::refusal_of(answer, words);
        const bool is_endless = settings.patience == std::chrono::milliseconds::max();
        wanzoche_monitor_set_patience(&made->monitor, is_endless ? -1 : std::max<std::int64_t>(settings.patience.count(), 0));
        detail::refusal why;
        made->declaration = detail::declared(detail::text_of(
            [&](char *buffer, std::size_t size) { return wanzoche_declaration(&made->monitor.system, buffer, size); }, why.code));
        if (settings.log) {
            made->log = std::move(settings.log);
            made->monitor.log_for = made.get();
            made->monitor.log = hand_over;
        }
        if (!why.code) state_ = std::move(made);
        return why;
    }

    /// Gives lines to the log. The monitor is in C, so nothing may be thrown through it.
    static void hand_over(void *at, const char *lines, std::size_t length) noexcept {
        static_cast<detail::state *>(at)->log(std::string_view(lines, length));
    }

    /// The operation that is wanted, looked up if it is a name.
    operation found(const wanted &what, errc &fault) const noexcept {
        if (state_ == nullptr) return fault = errc::closed, operation();
        if (what.is_known_) {
            if (what.known_.owner_ != state_->serial) fault = errc::foreign_operation;
            return what.known_;
        }
        const auto number = state_->declaration.number(what.name_);
        if (!number) return fault = errc::unknown_operation, operation();
        return {state_->serial, *number};
    }

    operation resolved(const wanted &what, std::error_code &code) const {
        errc fault{};
        const operation op = found(what, fault);
        set(code, fault);
        return op;
    }

    static void set(std::error_code &code, errc fault) noexcept {
        if (fault == errc{}) code.clear();
        else code = fault;
    }

    /// Begins an operation within a limit: without one if it is negative, and at once or not at all if it is 0. Where it is withheld,
    /// `ahead` is told for whom.
    attempted attempt(const wanted &what, std::int64_t milliseconds, wanzoche_waiting *ahead = nullptr) {
        attempted made;
        const operation op = found(what, made.fault);
        if (made.fault != errc{}) return made;
        made.thread = thread_number();
        const wanzoche_answer answer =
            wanzoche_enter_with_priority(&state_->monitor, made.thread, op.number_, milliseconds, what.priority_, ahead);
        if (answer.code != WANZOCHE_STARTED) made.fault = detail::fault_of(answer.code);
        made.number = answer.number;
        return made;
    }

    /// The same until a time of a clock, which may be set meanwhile.
    template <typename Clock, typename Duration>
    attempted attempt_until(const wanted &what, std::chrono::time_point<Clock, Duration> until, wanzoche_waiting *ahead = nullptr) {
        for (;;) {
            const std::int64_t left = detail::milliseconds_until(until);
            const attempted made = attempt(what, left, ahead);
            if (!made.is_over() || left == 0) return made;
        }
    }

    entry given(const attempted &made, std::error_code &code) noexcept {
        set(code, made.fault);
        return made.fault == errc{} ? entry(&state_->monitor, made.thread, made.number) : entry();
    }

    entry unless_blocked(attempted made, std::error_code &code) noexcept {
        if (!made.is_over()) return given(made, code);
        code.clear();
        return {};
    }

    /// What forbids an operation by a path. Under the lock.
    blockage blockage_of(std::uint32_t number, std::uint64_t path) const {
        const detail::declared_path &which = state_->declaration.path(path);
        blockage found{state_->declaration.name(number), static_cast<std::uint32_t>(path), which.resource, which.text, {}, {}, {}};
        std::vector<wanzoche_activation> live(wanzoche_live(&state_->monitor.system));
        live.resize(wanzoche_list_live(&state_->monitor.system, live.data(), static_cast<std::uint32_t>(live.size())));
        const auto is_of_path = [&](const wanzoche_activation &each) {
            return std::find(which.operations.begin(), which.operations.end(), each.operation) != which.operations.end();
        };
        for (const wanzoche_activation &each : live)
            if (is_of_path(each)) found.in_progress.push_back({state_->declaration.name(each.operation), each.worker, each.number});
        for (const std::uint32_t each : which.operations)
            if (wanzoche_can_start(&state_->monitor.system, each).code == WANZOCHE_CAN_START)
                found.may_begin.push_back(state_->declaration.name(each));
        return found;
    }

    /// For whom an operation is withheld.
    blockage blockage_behind(std::uint32_t number, const wanzoche_waiting &ahead) const {
        return {state_->declaration.name(number), 0, {}, {}, {}, {}, waiter_of(ahead)};
    }

    waiter waiter_of(const wanzoche_waiting &it) const {
        return {state_->declaration.name(it.operation), it.worker, it.priority, std::chrono::milliseconds(it.milliseconds)};
    }

    /// A text of the monitor.
    template <typename Write> std::string told(std::error_code &code, Write write) const {
        code.clear();
        if (state_ != nullptr) return detail::text_of(write, code);
        code = make_error_code(errc::closed);
        return {};
    }

#if WANZOCHE_THROWS
    /// What a call gives that sets no code. One that it sets is thrown.
    template <typename Call> static std::invoke_result_t<Call, std::error_code &> thrown(Call call) {
        std::error_code code;
        auto answer = call(code);
        if (code) detail::throw_code(code);
        return answer;
    }
    template <typename Call> std::invoke_result_t<Call, std::error_code &> thrown(const wanted &what, Call call) const {
        std::error_code code;
        auto answer = call(code);
        if (code) throw_for(what, code);
        return answer;
    }

    [[noreturn]] void throw_for(const wanted &what, std::error_code code) const {
        if (code != errc::unknown_operation) detail::throw_code(code);
        std::string names;
        for (const std::string &each : state_->declaration.names()) names += (names.empty() ? "" : ", ") + each;
        throw unknown_operation_error("no operation '" + std::string(what.name_) + "' is declared; there are " + names);
    }

    [[noreturn]] void throw_attempt(const attempted &made, const wanted &what, std::int64_t milliseconds,
                                    const wanzoche_waiting *ahead) const {
        if (!made.is_over()) throw_for(what, made.fault);
        errc fault{};
        const operation op = found(what, fault);
        if (made.fault == errc::withheld) throw blocked_error(blockage_behind(op.number_, *ahead), detail::waited(milliseconds));
        const detail::locked here(state_->monitor);
        throw blocked_error(blockage_of(op.number_, made.number), detail::waited(milliseconds));
    }

    entry given(const attempted &made, const wanted &what, std::int64_t milliseconds, const wanzoche_waiting *ahead = nullptr) {
        if (made.fault != errc{}) throw_attempt(made, what, milliseconds, ahead);
        return {&state_->monitor, made.thread, made.number};
    }
#endif

    std::unique_ptr<detail::state> state_;
};

} // namespace wanzoche

#endif
