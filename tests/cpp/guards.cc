// The guards of vlm.hpp: what each gives up when it goes, and what is thrown.
#include <cstdio>
#include <cstdlib>
#include <thread>
#include <type_traits>
#include <utility>
#include <vector>
#include <vlm.hpp>

using namespace vlm_cpp;
using std::chrono::milliseconds;

#define HOLD(fact)                                                          \
    do {                                                                    \
        if (!(fact)) {                                                      \
            std::fprintf(stderr, "%s:%d: %s\n", __FILE__, __LINE__, #fact); \
            std::exit(1);                                                   \
        }                                                                   \
    } while (false)

static_assert(!std::is_copy_constructible_v<Lock> && !std::is_copy_constructible_v<Process>);
static_assert(!std::is_copy_constructible_v<Manager> && std::is_nothrow_move_constructible_v<Manager>);
static_assert(std::is_nothrow_move_constructible_v<Lock> && std::is_nothrow_move_constructible_v<Process>);

template <typename Call> static std::uint32_t thrown(Call call) {
    try {
        call();
    } catch (const Error &error) {
        return error.status();
    }
    return 0;
}

static std::uint64_t locks_of(const Manager &manager) {
    vlm_threads_counters counters{};
    counters.size = sizeof counters;
    HOLD(vlm_threads_read_counters(manager.get(), &counters) == VLM_NORMAL);
    return counters.locks;
}

static void a_lock_goes_with_its_object() {
    Manager manager;
    Process process = manager.declare(), other = manager.declare();
    {
        Lock lock = process.lock("A", Mode::ex);
        HOLD(lock.id() != 0 && lock.mode() == Mode::ex && locks_of(manager) == 1);
        HOLD(!other.try_lock("A", Mode::cr) && other.try_lock("A", Mode::nl));
        HOLD(thrown([&] { other.lock("A", Mode::pr, {milliseconds(5)}); }) == VLM_TIMEOUT);
        Lock moved = std::move(lock);
        HOLD(locks_of(manager) == 1);
    }
    HOLD(locks_of(manager) == 0 && other.try_lock("A", Mode::ex));
    Lock lock = process.lock("A", Mode::pr);
    lock = process.lock("B", Mode::pr);
    HOLD(locks_of(manager) == 1 && other.try_lock("A", Mode::ex));
    lock.unlock();
    HOLD(locks_of(manager) == 0);
}

static void a_parent_goes_after_its_sublocks() {
    Manager manager;
    Process process = manager.declare();
    std::vector<Lock> locks;
    locks.push_back(process.lock("table", Mode::cw));
    locks.push_back(process.lock_below(locks[0], "row", Mode::ex));
    locks.push_back(process.lock_below(locks[1], "field", Mode::ex));
    HOLD(thrown([&] { locks[0].unlock(); }) == VLM_SUBLOCKS && locks_of(manager) == 3);
    locks.erase(locks.begin(), locks.begin() + 2);
    HOLD(locks_of(manager) == 3);
    locks.clear();
    HOLD(locks_of(manager) == 0);
}

static void a_value_goes_from_holder_to_holder() {
    Manager manager;
    Process process = manager.declare(), other = manager.declare();
    const Terms valued{milliseconds(0), VLM_VALBLK};
    const Value seven{7};
    HOLD(!process.lock("A", Mode::ex).value());
    {
        Lock keeper = other.lock("A", Mode::nl);
        Lock lock = process.lock("A", Mode::ex, valued);
        HOLD(lock.value() == Value{});
        lock.unlock(&seven);
        lock = process.lock("A", Mode::pr, valued);
        HOLD(lock.value() == seven);
        lock.convert(Mode::pw, valued);
        lock.convert(Mode::nl, {milliseconds(0), VLM_VALBLK, Value{8}});
        HOLD(lock.mode() == Mode::nl && process.lock("A", Mode::pr, valued).value() == Value{8});
        lock.convert(Mode::pr, valued);
        lock.convert(Mode::cr, {milliseconds(0), VLM_VALBLK, Value{9}}); // (it neither reads nor writes)
        HOLD(lock.value() == Value{8});
        const Terms wide{milliseconds(0), VLM_VALBLK | VLM_WIDE};
        HOLD(thrown([&] { process.lock("A", Mode::nl, wide); }) == VLM_BADPARAM);
        HOLD(thrown([&] { lock.convert(Mode::nl, wide); }) == VLM_BADPARAM && lock.mode() == Mode::cr);
    }
    HOLD(locks_of(manager) == 0);
}

static void an_ended_process_frees_its_locks() {
    Manager manager;
    Process other = manager.declare();
    {
        Process process = manager.declare();
        Lock lock = process.lock("A", Mode::ex);
        Process moved = std::move(process);
        process = std::move(moved);
        vlm_threads_rundown(manager.get(), process.id());
        HOLD(locks_of(manager) == 0);
        HOLD(thrown([&] { lock.convert(Mode::nl); }) == VLM_NONEXPR);
    }
    {
        Process ended = manager.declare(), kept = manager.declare();
        Lock lock = ended.lock("A", Mode::ex);
        ended = std::move(kept);
        HOLD(locks_of(manager) == 0);
    }
    other.lock("A", Mode::ex);
    Declaration one;
    one.quota = 1;
    Process small = manager.declare(one);
    Lock lock = small.lock("B", Mode::nl);
    HOLD(thrown([&] { small.lock("C", Mode::nl); }) == VLM_EXENQLM);
    HOLD(thrown([&] { other.lock("", Mode::nl); }) == VLM_IVBUFLEN);
    HOLD(thrown([&] { other.lock("A", Mode::nl, {milliseconds(-1)}); }) == VLM_BADPARAM);
    HOLD(thrown([&] { Manager never(milliseconds(-1)); }) == VLM_BADPARAM);
    one.node = 9;
    HOLD(thrown([&] { manager.declare(one); }) == VLM_BADPARAM);
}

// An object that outlives its manager's object keeps the layer.
static void a_lock_keeps_its_manager() {
    std::optional<Lock> lock;
    {
        Manager manager;
        Process process = manager.declare();
        lock = process.lock("A", Mode::ex);
    }
    HOLD(lock->id() != 0);
}

static void threads_count_under_a_lock() {
    Manager manager;
    std::vector<std::thread> threads;
    int counted = 0;
    for (int i = 0; i < 4; i++)
        threads.emplace_back([&manager, &counted] {
            Process process = manager.declare();
            for (int k = 0; k < 500; k++) {
                Lock lock = process.lock("A", Mode::ex);
                counted++;
            }
        });
    for (std::thread &thread : threads)
        thread.join();
    HOLD(counted == 2000);
}

// Two processes that wait for each other: the later request is the victim.
static void a_deadlock_is_thrown() {
    Manager manager(milliseconds(5));
    Process one = manager.declare(), two = manager.declare();
    Lock first = one.lock("A", Mode::ex);
    std::optional<Lock> second = two.lock("B", Mode::ex);
    std::uint32_t answer = 0;
    std::thread waits([&] {
        answer = thrown([&] { two.lock("A", Mode::ex); });
        second.reset();
    });
    std::uint32_t mine = thrown([&] { one.lock("B", Mode::ex); });
    if (mine == VLM_DEADLOCK)
        first.unlock();
    waits.join();
    HOLD((mine == VLM_DEADLOCK) != (answer == VLM_DEADLOCK) && (mine == 0) != (answer == 0));
}

static void all_hold() {
    a_lock_goes_with_its_object();
    a_parent_goes_after_its_sublocks();
    a_value_goes_from_holder_to_holder();
    an_ended_process_frees_its_locks();
    a_lock_keeps_its_manager();
    threads_count_under_a_lock();
    a_deadlock_is_thrown();
    HOLD(std::string(Error(VLM_DEADLOCK).what()) == "SS$_DEADLOCK" && std::string(Error(99).what()) == "answer 99");
    std::puts("guards hold");
}

int main() {
    try {
        all_hold();
    } catch (const std::exception &error) {
        std::fprintf(stderr, "thrown: %s\n", error.what());
        return 1;
    }
    return 0;
}
