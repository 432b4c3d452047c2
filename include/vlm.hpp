/* The lock manager for programs in C++17: guards and exceptions over vlm_threads.h.
 *
 *     vlm_cpp::Manager manager;
 *     vlm_cpp::Process process = manager.declare();
 *     {
 *         vlm_cpp::Lock lock = process.lock("A", vlm_cpp::Mode::ex);
 *         ... this process holds A alone ...
 *     }
 *
 * A Lock gives its lock up when it goes, a Process runs its process down, and the last of a manager's objects closes
 * it. A lock with sublocks goes after the last of them, in whichever order their objects go.
 *
 * Each object may be moved, and not copied. Any thread may use it, one at a time. What vlm_threads.h says of calls
 * holds here too: `get` and the numbers lead to all that this header leaves out, as routines and the start forms.
 *
 * An answer other than a grant is thrown as an Error, and nothing has changed then. A destructor throws nothing.
 * This header is plain C++ over the layer for threads. It is tested, and not proved.
 */
#ifndef VLM_HPP
#define VLM_HPP

#include <array>
#include <chrono>
#include <cstdint>
#include <limits>
#include <memory>
#include <optional>
#include <stdexcept>
#include <string>
#include <string_view>
#include <utility>

#include "vlm_threads.h"

namespace vlm_cpp {

enum class Mode : std::uint32_t { nl = VLM_NL, cr = VLM_CR, cw = VLM_CW, pr = VLM_PR, pw = VLM_PW, ex = VLM_EX };

using Value = std::array<std::uint8_t, VLM_VALUE_BYTES>;

/* What a call was answered instead of a grant: a condition value of vlm.h, or VLM_TIMEOUT. */
class Error : public std::runtime_error {
  public:
    explicit Error(std::uint32_t status) : std::runtime_error(name_of(status)), status_(status) {}

    std::uint32_t status() const noexcept { return status_; }

  private:
    static std::string name_of(std::uint32_t status) {
        const char *name = vlm_condition_name(status);
        return name != nullptr ? name : "answer " + std::to_string(status);
    }

    std::uint32_t status_;
};

/* How a request is made. */
struct Terms {
    std::chrono::milliseconds wait{0}; /* the longest wait, or 0: no limit. A longer one than 49 days counts as that */
    std::uint32_t flags = 0;           /* flags of vlm_enq but VLM_WIDE. VLM_VALBLK: the value is read, or written */
    Value value{};                     /* what a conversion to a lower mode writes, with VLM_VALBLK */
};

/* What a process is declared with. */
struct Declaration {
    std::uint32_t node = 1;
    std::uint32_t group = 0;
    std::uint32_t quota = VLM_MAX_QUOTA; /* how many locks it may have */
    std::uint32_t requests = 1;          /* how many of its requests may be under way at once, to 255 */
    bool syslck = false;
};

namespace detail {

using Layer = std::shared_ptr<vlm_threads>;

inline void check(std::uint32_t status) {
    if (status != VLM_NORMAL && status != VLM_SYNCH)
        throw Error(status);
}

/* A process, until its object and its locks have gone. */
struct Owner {
    Layer layer;
    std::uint32_t pid;
};

inline std::uint32_t dequeue(const Owner &owner, std::uint32_t lkid, const Value *value) noexcept {
    vlm_threads_dequeue given{};
    given.size = sizeof given;
    given.pid = owner.pid;
    given.lock = lkid;
    given.value = value != nullptr ? value->data() : nullptr;
    return vlm_threads_deq(owner.layer.get(), &given);
}

/* A lock. A sublock keeps its parent, so the parent is given up after it. */
struct Held {
    Held(Owner process, std::shared_ptr<Held> above) : owner(std::move(process)), parent(std::move(above)) {}
    Held(const Held &) = delete;
    Held &operator=(const Held &) = delete;
    ~Held() {
        if (lkid != 0)
            dequeue(owner, lkid, nullptr);
    }

    Owner owner;
    std::shared_ptr<Held> parent;
    std::uint32_t lkid = 0;
    Mode mode = Mode::nl;
    Value value{};
    bool has_value = false;
};

inline vlm_threads_request request_of(const Owner &owner, Mode mode, std::uint32_t lkid, const Terms &terms) {
    constexpr auto longest = std::numeric_limits<std::uint32_t>::max();
    if (terms.wait.count() < 0 || (terms.flags & VLM_WIDE) != 0) /* a Value has no tail */
        throw Error(VLM_BADPARAM);
    vlm_threads_request request{};
    request.size = sizeof request;
    request.pid = owner.pid;
    request.mode = static_cast<std::uint32_t>(mode);
    request.flags = terms.flags;
    request.lock = lkid;
    request.milliseconds = terms.wait.count() < longest ? static_cast<std::uint32_t>(terms.wait.count()) : longest;
    return request;
}

} // namespace detail

/* A granted lock. It is given up when its object goes: later, if it has sublocks then. */
class Lock {
  public:
    Lock(Lock &&) noexcept = default;
    Lock &operator=(Lock &&) noexcept = default;

    std::uint32_t id() const noexcept { return held_->lkid; }
    Mode mode() const noexcept { return held_->mode; }

    /* The value block, as the last request with VLM_VALBLK read or wrote it; nothing if it was invalid then, or if no
     * request had the flag. */
    std::optional<Value> value() const { return held_->has_value ? std::optional<Value>(held_->value) : std::nullopt; }

    /* Asks for another mode, and waits. On an Error the lock holds what it held, except with NONEXPR, DEPARTED and
     * ABORT: it has gone. */
    void convert(Mode mode, const Terms &terms = {}) {
        auto request = detail::request_of(held_->owner, mode, held_->lkid, terms);
        Value value = terms.value;
        request.value = value.data();
        std::uint32_t answer = vlm_threads_convert(held_->owner.layer.get(), &request);
        detail::check(answer);
        granted(mode, request, value);
    }

    /* Gives the lock up, and may write its value block, if it is held at PW or EX. On an Error it is as it was: with
     * SUBLOCKS it has sublocks. The object has no lock afterwards, and may only be assigned or destroyed. */
    void unlock(const Value *value = nullptr) {
        detail::check(detail::dequeue(held_->owner, held_->lkid, value));
        held_->lkid = 0;
        held_.reset();
    }

  private:
    friend class Process;

    explicit Lock(std::shared_ptr<detail::Held> held) : held_(std::move(held)) {}

    void granted(Mode mode, const vlm_threads_request &request, const Value &value) {
        bool is_writer = held_->mode >= Mode::pw, is_new = held_->lkid == 0;
        bool is_known = is_new || is_writer || mode >= held_->mode; /* it was read or written */
        held_->lkid = request.lkid;
        held_->mode = mode;
        if ((request.flags & VLM_VALBLK) != 0 && is_known) {
            held_->value = value;
            held_->has_value = request.status == VLM_NORMAL;
        }
    }

    std::shared_ptr<detail::Held> held_;
};

/* A process of a manager. It is run down, with all its locks, when its object goes. */
class Process {
  public:
    Process(Process &&other) noexcept : owner_(std::exchange(other.owner_, {})) {}
    Process &operator=(Process &&other) noexcept {
        Process gone(std::move(other));
        std::swap(owner_, gone.owner_);
        return *this;
    }
    ~Process() {
        if (owner_.layer != nullptr)
            vlm_threads_rundown(owner_.layer.get(), owner_.pid);
    }

    std::uint32_t id() const noexcept { return owner_.pid; }

    /* Asks for a lock on a resource, of 1 to 31 bytes, and waits. Errors as vlm_threads_enq. */
    Lock lock(std::string_view name, Mode mode, const Terms &terms = {}) { return ask(name, mode, terms, nullptr); }

    /* The same on a resource below a lock of this process. */
    Lock lock_below(const Lock &parent, std::string_view name, Mode mode, const Terms &terms = {}) {
        return ask(name, mode, terms, parent.held_);
    }

    /* Asks for a lock that can be granted at once. Nothing if it can't. */
    std::optional<Lock> try_lock(std::string_view name, Mode mode, Terms terms = {}) {
        terms.flags |= VLM_NOQUEUE;
        try {
            return lock(name, mode, terms);
        } catch (const Error &error) {
            if (error.status() == VLM_NOTQUEUED)
                return std::nullopt;
            throw;
        }
    }

  private:
    friend class Manager;

    explicit Process(detail::Owner owner) : owner_(std::move(owner)) {}

    Lock ask(std::string_view name, Mode mode, const Terms &terms, std::shared_ptr<detail::Held> parent) {
        auto request = detail::request_of(owner_, mode, parent != nullptr ? parent->lkid : 0, terms);
        auto held = std::make_shared<detail::Held>(owner_, std::move(parent));
        Value value{};
        const char *bytes = name.data() != nullptr ? name.data() : "";
        request.value = value.data();
        detail::check(
            vlm_threads_enq(owner_.layer.get(), &request, reinterpret_cast<const std::uint8_t *>(bytes), name.size()));
        Lock lock(std::move(held));
        lock.granted(mode, request, value);
        return lock;
    }

    detail::Owner owner_;
};

/* A lock manager for the threads of this program. */
class Manager {
  public:
    Manager(Manager &&) noexcept = default;
    Manager &operator=(Manager &&) noexcept = default;

    /* Opens one that searches for deadlocks at an interval, or with 0 never. Errors: INSFMEM, BADPARAM. */
    explicit Manager(std::chrono::milliseconds search = std::chrono::milliseconds(100)) : Manager(options_of(search)) {}

    explicit Manager(const vlm_threads_options &options) {
        vlm_threads *layer = nullptr;
        detail::check(vlm_threads_open(&options, &layer));
        layer_ = detail::Layer(layer, [](vlm_threads *it) { vlm_threads_close(it); });
    }

    /* Errors as vlm_threads_declare. */
    Process declare(const Declaration &declaration = {}) {
        vlm_threads_declaration given{};
        std::uint32_t pid = 0;
        given.size = sizeof given;
        given.node = declaration.node;
        given.group = declaration.group;
        given.syslck = declaration.syslck ? 1 : 0;
        given.quota = declaration.quota;
        given.requests = declaration.requests;
        detail::check(vlm_threads_declare(layer_.get(), &given, &pid));
        return Process(detail::Owner{layer_, pid});
    }

    /* The layer, for the calls of vlm_threads.h. */
    vlm_threads *get() const noexcept { return layer_.get(); }

  private:
    static vlm_threads_options options_of(std::chrono::milliseconds search) {
        if (search.count() < 0 || search.count() > std::numeric_limits<std::uint32_t>::max())
            throw Error(VLM_BADPARAM);
        vlm_threads_options options = VLM_THREADS_OPTIONS;
        options.search_milliseconds = static_cast<std::uint32_t>(search.count());
        return options;
    }

    detail::Layer layer_;
};

} // namespace vlm_cpp

#endif
