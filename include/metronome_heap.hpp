/*
 * metronome_heap.hpp: the part of metronome.hpp for whole heaps. metronome.hpp includes it, and says how its calls work.
 */
#ifndef METRONOME_HEAP_HPP
#define METRONOME_HEAP_HPP

#include "metronome_shared.h"

#include <array>
#include <bitset>
#include <cassert>
#include <cstddef>
#include <cstdint>
#include <exception>
#include <memory>
#include <new>
#include <utility>

namespace barleynight {

class Mutator;

namespace detail {

constexpr std::size_t MOST_MUTATORS = 64, MOST_SLOTS = 256;

// Returns the status of an answer.
inline std::uint32_t status_of(metronome_answer answer) noexcept {
    constexpr std::uint32_t ok = METRONOME_OK;
    return answer.kind == METRONOME_REFUSED ? static_cast<std::uint32_t>(answer.number) : ok;
}

// Stores the number of an answer, unless it is refused, or how many commands of a list were done. Returns the status.
inline std::uint32_t tell(metronome_answer answer, std::uint64_t &number) noexcept {
    if (answer.kind != METRONOME_REFUSED) number = answer.number;
    return status_of(answer);
}
inline std::uint32_t tell(metronome_progress progress, std::uint32_t &done) noexcept {
    done = progress.done;
    return progress.status;
}

// Stores whether a comparison held, unless it is refused. Returns its status.
inline std::uint32_t tell_kind(metronome_answer answer, bool &stored) noexcept {
    if (answer.kind != METRONOME_REFUSED) stored = answer.kind == METRONOME_STORED;
    return status_of(answer);
}

// A heap that stays in place when its `Heap` is moved, and the set of its mutators that have a `Mutator`.
struct HeapState {
    HeapState() = default;
    HeapState(const HeapState &) = delete;
    HeapState &operator=(const HeapState &) = delete;
    ~HeapState() {
        assert(used.none() && "a heap outlives its mutators");
        metronome_destroy(&handle);
    }

    metronome handle = METRONOME_CLOSED;
    std::uint32_t slots = 0;
    std::bitset<MOST_MUTATORS> used;
};

// A mutator, and its free slots.
struct MutatorState {
    MutatorState(HeapState &its_heap, std::uint32_t its_number) noexcept : heap(its_heap), number(its_number) {
        for (std::uint32_t slot = heap.slots; slot > 0; slot--) free[left++] = slot - 1;
    }
    MutatorState(const MutatorState &) = delete;
    MutatorState &operator=(const MutatorState &) = delete;
    ~MutatorState() {
        if (!is_on) return;
        assert(left == heap.slots && "a mutator outlives its roots");
        [[maybe_unused]] const metronome_answer answer = call(metronome_leave);
        assert(answer.kind != METRONOME_REFUSED && "a mutator of a shared heap ends in a turn");
        heap.used.reset(number);
    }

    // Calls a function of metronome.h on the heap, for this mutator.
    template <typename Answer, typename... Taken, typename... Given>
    Answer call(Answer (*function)(metronome *, std::uint32_t, Taken...), Given... given) noexcept {
        return function(&heap.handle, number, static_cast<Taken>(given)...);
    }

    std::uint32_t take() noexcept { return free[--left]; }
    void give(std::uint32_t slot) noexcept {
        [[maybe_unused]] const metronome_answer answer = call(metronome_clear, slot);
        assert(answer.kind != METRONOME_REFUSED && "a root of a shared heap ends in a turn");
        free[left++] = slot;
    }

    HeapState &heap;
    std::uint32_t number;
    std::size_t left = 0;
    std::array<std::uint32_t, MOST_SLOTS> free;
    bool is_on = false;
};

} // namespace detail

#ifdef __cpp_exceptions

// The exception of a refused call, with its status and the status's text.
class Refusal : public std::exception {
public:
    explicit Refusal(std::uint32_t status) noexcept : its_status(status) { metronome_text(status, text, sizeof text); }

    std::uint32_t status() const noexcept { return its_status; }
    const char *what() const noexcept override { return text; }

private:
    std::uint32_t its_status;
    char text[64];
};

namespace detail {

inline void need(std::uint32_t status) { if (status != METRONOME_OK) throw Refusal(status); }

// Returns the result that a call stores, unless it is refused.
template <typename Call, typename Result>
Result result_of(std::uint32_t (Call::*)(Result &) const);

template <typename Call>
auto got(Call call) {
    decltype(result_of(&Call::operator())) result{};
    need(call(result));
    return result;
}

} // namespace detail

#endif

// A heap, or a handle at a shared heap. If it is closed, each call is refused as NO_HEAP. A shared heap stays until its last handle is
// gone; each call on it must be made in a turn (metronome_shared.hpp), except those that say otherwise.
class Heap {
public:
    Heap() = default;

    // Makes a heap of its own, or a shared heap that keeps the last `log` events, and perhaps a plan. Needs no turn, as try_sit and
    // try_place.
    std::uint32_t try_open(const metronome_settings &settings) noexcept {
        return open([&](metronome *made) { return metronome_create(made, &settings); }, settings.slots);
    }
    std::uint32_t try_open_shared(const metronome_settings &settings, std::size_t log = 0) noexcept {
        return open([&](metronome *made) { return metronome_create_shared(made, &settings, log); }, settings.slots);
    }
    std::uint32_t try_open_shared(const metronome_settings &settings, std::size_t log, const metronome_flow &flow) noexcept {
        return open([&](metronome *made) { return metronome_create_shared_kept(made, &settings, log, &flow); }, settings.slots);
    }
    // Makes one more handle at a shared heap. It takes over this one's mutators from number `from` on.
    std::uint32_t try_sit(std::uint32_t from, Heap &made) noexcept {
        return made.open([&](metronome *handle_of) { return metronome_sit(handle(), handle_of, from); }, state ? state->slots : 0);
    }
    // Stores the length of the log, or the event at a place of the log.
    std::uint32_t try_place(std::uint64_t &place) noexcept { return metronome_place(handle(), &place); }
    std::uint32_t try_event(std::uint64_t place, metronome_event &event) noexcept { return metronome_entry(handle(), place, &event); }

    std::uint32_t try_touch(std::size_t pages) noexcept { return metronome_touch(handle(), pages); }

    std::uint32_t try_begin() noexcept { return metronome_begin(handle()); }
    std::uint32_t try_quantum(std::uint32_t budget, metronome_spent &spent) noexcept {
        return metronome_quantum(handle(), budget, &spent);
    }
    std::uint32_t try_whole_cycle(std::uint32_t budget) noexcept { return metronome_whole_cycle(handle(), budget); }
    std::uint32_t try_pace(metronome_pacing &pacing, std::uint64_t words) noexcept {
        return metronome_pace(handle(), &pacing, words);
    }

    std::uint32_t try_keep(const metronome_flow &flow) noexcept { return metronome_keep(handle(), &flow); }
    std::uint32_t try_kept(metronome_work &work) noexcept { return metronome_kept(handle(), &work); }
    std::uint32_t try_prepare(std::uint64_t words, std::uint64_t &left) noexcept { return metronome_prepare(handle(), words, &left); }

    std::uint32_t try_phase(std::uint32_t &phase) noexcept { return metronome_phase(handle(), &phase); }
    std::uint32_t try_units(std::uint64_t &units) noexcept { return metronome_units(handle(), &units); }
    std::uint32_t try_free_pages(std::uint64_t &pages) noexcept { return metronome_free_pages(handle(), &pages); }
    std::uint32_t try_count(metronome_counts &counts) noexcept { return metronome_count(handle(), &counts); }
    std::uint32_t try_last_cycle(metronome_cycle &cycle) noexcept { return metronome_last_cycle(handle(), &cycle); }
    std::uint32_t try_page(std::size_t number, metronome_page_view &page) noexcept { return metronome_page(handle(), number, &page); }
    std::uint32_t try_block(std::size_t page, std::size_t number, metronome_block_view &block) noexcept {
        return metronome_block(handle(), page, number, &block);
    }

    // Returns the handle for calls of metronome.h. Only these calls may read or write it.
    metronome *handle() noexcept { return state ? &state->handle : &none; }

#ifdef __cpp_exceptions
    explicit Heap(const metronome_settings &settings) { detail::need(try_open(settings)); }
    static Heap shared(const metronome_settings &settings, std::size_t log = 0) {
        return detail::got([&](Heap &made) { return made.try_open_shared(settings, log); });
    }

    static Heap shared(const metronome_settings &settings, std::size_t log, const metronome_flow &flow) {
        return detail::got([&](Heap &made) { return made.try_open_shared(settings, log, flow); });
    }

    Heap sit(std::uint32_t from) { return detail::got([&](Heap &made) { return try_sit(from, made); }); }
    std::uint64_t place() { return detail::got([&](std::uint64_t &place) { return try_place(place); }); }
    metronome_event event(std::uint64_t place) {
        return detail::got([&](metronome_event &event) { return try_event(place, event); });
    }

    void touch(std::size_t pages) { detail::need(try_touch(pages)); }

    // Returns whether a cycle began, because none was running.
    bool begin() {
        const std::uint32_t status = try_begin();
        if (status != METRONOME_BUSY) detail::need(status);
        return status == METRONOME_OK;
    }
    metronome_spent quantum(std::uint32_t budget) {
        return detail::got([&](metronome_spent &spent) { return try_quantum(budget, spent); });
    }
    void whole_cycle(std::uint32_t budget) { detail::need(try_whole_cycle(budget)); }
    void pace(metronome_pacing &pacing, std::uint64_t words) { detail::need(try_pace(pacing, words)); }

    void keep(const metronome_flow &flow) { detail::need(try_keep(flow)); }
    metronome_work kept() { return detail::got([&](metronome_work &work) { return try_kept(work); }); }
    // Returns how many more calls are needed at most.
    std::uint64_t prepare(std::uint64_t words) { return detail::got([&](std::uint64_t &left) { return try_prepare(words, left); }); }

    std::uint32_t phase() { return detail::got([&](std::uint32_t &phase) { return try_phase(phase); }); }
    std::uint64_t units() { return detail::got([&](std::uint64_t &units) { return try_units(units); }); }
    std::uint64_t free_pages() { return detail::got([&](std::uint64_t &pages) { return try_free_pages(pages); }); }
    metronome_counts count() { return detail::got([&](metronome_counts &counts) { return try_count(counts); }); }
    metronome_cycle last_cycle() { return detail::got([&](metronome_cycle &cycle) { return try_last_cycle(cycle); }); }
    metronome_page_view page(std::size_t number) {
        return detail::got([&](metronome_page_view &page) { return try_page(number, page); });
    }
    metronome_block_view block(std::size_t page, std::size_t number) {
        return detail::got([&](metronome_block_view &block) { return try_block(page, number, block); });
    }
#endif

private:
    friend class Mutator;

    // Holds what a call makes, with this many slots of each mutator, if the heap is closed.
    template <typename Call>
    std::uint32_t open(Call call, std::int64_t slots) noexcept {
        if (state) return METRONOME_OPEN;
        std::unique_ptr<detail::HeapState> made(new (std::nothrow) detail::HeapState);
        if (!made) return METRONOME_NO_MEMORY;
        const std::uint32_t status = call(&made->handle);
        if (status != METRONOME_OK) return status;
        made->slots = static_cast<std::uint32_t>(slots);
        state = std::move(made);
        return METRONOME_OK;
    }

    std::unique_ptr<detail::HeapState> state;
    metronome none = METRONOME_CLOSED;
};

#ifdef __cpp_exceptions
inline metronome_flow plan(const metronome_settings &settings, std::uint64_t live_words) {
    return detail::got([&](metronome_flow &flow) { return metronome_plan(&settings, live_words, &flow); });
}
inline metronome_flow plan_for(const metronome_settings &settings, std::uint64_t live_words, std::uint64_t largest_words) {
    return detail::got([&](metronome_flow &flow) { return metronome_plan_for(&settings, live_words, largest_words, &flow); });
}
inline metronome_limit cycle_limit(const metronome_settings &settings) {
    return detail::got([&](metronome_limit &limit) { return metronome_cycle_limit(&settings, &limit); });
}
#endif

} // namespace barleynight

#endif
