/*
 * metronome.hpp: the heap of metronome.h for C++17, as classes. A heap can be moved, but not copied. A root gives its slot back
 * when it goes out of scope. This is plain C++ over the calls of metronome.h, and nothing of it is proved.
 *
 * Each call comes twice. `try_NAME` throws nothing: it returns a metronome_status, and stores its result in its last parameter,
 * unless the call is refused. The calls with a parameter `done` always store it: how many commands of the list were done. NAME
 * returns its result, and throws a Refusal if the call is refused; a build without exceptions doesn't have it. A call does the same
 * as that of its name in metronome.h and the headers that it includes.
 *
 * A heap must outlive its mutators, and a mutator its roots. A call with roots of two mutators is refused as OTHER_MUTATOR. A heap
 * takes one call at a time, as metronome.h says; the end of a root is a call, too. At a shared heap mutators and roots may stay
 * from turn to turn, but each call on them, and their end, must be in a turn (metronome_shared.hpp).
 */
#ifndef METRONOME_HPP
#define METRONOME_HPP

#include "metronome_heap.hpp"

#include <array>
#include <cstddef>
#include <cstdint>
#include <initializer_list>
#include <memory>
#include <new>
#include <optional>
#include <utility>

namespace barleynight {

// The identity and the shape of an object.
struct Description {
    std::uint64_t identity;
    metronome_shape shape;
};

// A slot of a mutator, which belongs to this root until the root goes out of scope. The root keeps its object alive. A root that was
// moved away has no slot, and each of its calls is refused as BAD_SLOT.
class Root {
public:
    Root(Root &&other) noexcept : owner(std::exchange(other.owner, nullptr)), slot(other.slot) {}
    Root &operator=(Root &&other) noexcept {
        std::swap(owner, other.owner);
        std::swap(slot, other.slot);
        return *this;
    }
    Root(const Root &) = delete;
    Root &operator=(const Root &) = delete;
    ~Root() { if (owner != nullptr) owner->give(slot); }

    std::uint32_t try_load(std::uint32_t i, Root &into) const noexcept {
        return act({this, &into}, metronome_load, into.slot, slot, i);
    }
    std::uint32_t try_store(std::uint32_t i, const Root &from) noexcept {
        return act({this, &from}, metronome_store, slot, i, from.slot);
    }
    // Stores whether it was stored, because the cell held the reference in `expect`.
    std::uint32_t try_compare_store(std::uint32_t i, const Root &expect, const Root &replacement, bool &stored) noexcept {
        return detail::tell_kind(
            ask({this, &expect, &replacement}, metronome_compare_store, slot, i, expect.slot, replacement.slot), stored);
    }
    std::uint32_t try_get(std::uint32_t i, std::uint64_t &word) const noexcept {
        return detail::tell(ask({this}, metronome_get, slot, i), word);
    }
    std::uint32_t try_put(std::uint32_t i, std::uint64_t word) noexcept { return act({this}, metronome_put, slot, i, word); }
    // Stores whether it was stored, because the cell was `old`.
    std::uint32_t try_compare_put(std::uint32_t i, std::uint64_t old, std::uint64_t replacement, bool &stored) noexcept {
        return detail::tell_kind(ask({this}, metronome_compare_put, slot, i, old, replacement), stored);
    }
    std::uint32_t try_get_words(std::uint32_t first, std::uint64_t *words, std::size_t count, std::uint32_t &done) const noexcept {
        return detail::tell(ask({this}, metronome_get_words, slot, first, words, count), done);
    }
    std::uint32_t try_put_words(std::uint32_t first, const std::uint64_t *words, std::size_t count, std::uint32_t &done) noexcept {
        return detail::tell(ask({this}, metronome_put_words, slot, first, words, count), done);
    }
    // Copies `count` references, from cell `first` on, into another root's object, from its cell `to_first` on.
    std::uint32_t try_copy_refs(std::uint32_t first, Root &to, std::uint32_t to_first, std::uint32_t count, Root &through,
                                std::uint32_t &done) const noexcept {
        return detail::tell(
            ask({this, &to, &through}, metronome_copy_refs, through.slot, slot, first, to.slot, to_first, count), done);
    }
    // Moves the other root's reference into this root. The other root is then null.
    std::uint32_t try_take(Root &from) noexcept { return ask({this, &from}, metronome_move, slot, from.slot).status; }
    // Copies the other root's reference into this root.
    std::uint32_t try_assign(const Root &from) noexcept { return act({this, &from}, metronome_copy, slot, from.slot); }
    std::uint32_t try_clear() noexcept { return act({this}, metronome_clear, slot); }
    std::uint32_t try_same(const Root &other, bool &same) const noexcept {
        std::uint64_t is = same;
        const std::uint32_t status = detail::tell(ask({this, &other}, metronome_same, slot, other.slot), is);
        same = is != 0;
        return status;
    }
    std::uint32_t try_describe(Description &described) const noexcept {
        return detail::tell(ask({this}, metronome_describe, slot, &described.shape), described.identity);
    }
    std::uint32_t try_is_null(bool &is) const noexcept {
        Description described{};
        const std::uint32_t status = try_describe(described);
        if (status != METRONOME_OK && status != METRONOME_NULL_SLOT) return status;
        is = status == METRONOME_NULL_SLOT;
        return METRONOME_OK;
    }

#ifdef __cpp_exceptions
    Root load(std::uint32_t i) const {
        if (owner == nullptr) throw Refusal(METRONOME_BAD_SLOT);
        Root loaded = null_of(*owner);
        load(i, loaded);
        return loaded;
    }
    void load(std::uint32_t i, Root &into) const { detail::need(try_load(i, into)); }
    void store(std::uint32_t i, const Root &from) { detail::need(try_store(i, from)); }
    bool compare_store(std::uint32_t i, const Root &expect, const Root &replacement) {
        return detail::got([&](bool &stored) { return try_compare_store(i, expect, replacement, stored); });
    }
    std::uint64_t get(std::uint32_t i) const { return detail::got([&](std::uint64_t &word) { return try_get(i, word); }); }
    void put(std::uint32_t i, std::uint64_t word) { detail::need(try_put(i, word)); }
    bool compare_put(std::uint32_t i, std::uint64_t old, std::uint64_t replacement) {
        return detail::got([&](bool &stored) { return try_compare_put(i, old, replacement, stored); });
    }
    void get_words(std::uint32_t first, std::uint64_t *words, std::size_t count) const {
        detail::got([&](std::uint32_t &done) { return try_get_words(first, words, count, done); });
    }
    void put_words(std::uint32_t first, const std::uint64_t *words, std::size_t count) {
        detail::got([&](std::uint32_t &done) { return try_put_words(first, words, count, done); });
    }
    void copy_refs(std::uint32_t first, Root &to, std::uint32_t to_first, std::uint32_t count, Root &through) const {
        detail::got([&](std::uint32_t &done) { return try_copy_refs(first, to, to_first, count, through, done); });
    }
    void take(Root &from) { detail::need(try_take(from)); }
    void assign(const Root &from) { detail::need(try_assign(from)); }
    void clear() { detail::need(try_clear()); }
    bool same(const Root &other) const { return detail::got([&](bool &is) { return try_same(other, is); }); }
    Description describe() const { return detail::got([&](Description &described) { return try_describe(described); }); }
    bool is_null() const { return detail::got([&](bool &is) { return try_is_null(is); }); }
#endif

private:
    friend class Mutator;

    // Takes a free slot of a mutator, which holds null.
    explicit Root(detail::MutatorState &of) noexcept : owner(&of), slot(of.take()) {}
#ifdef __cpp_exceptions
    static Root null_of(detail::MutatorState &of) {
        if (of.left == 0) throw Refusal(METRONOME_SLOTS_USED);
        return Root(of);
    }
#endif

    // Calls a function for a mutator, unless these aren't all roots of it.
    template <typename Answer, typename... Taken, typename... Given>
    static Answer ask_for(detail::MutatorState *mutator, std::initializer_list<const Root *> roots,
                          Answer (*function)(metronome *, std::uint32_t, Taken...), Given... given) noexcept {
        static_assert(METRONOME_REFUSED == 0, "an answer that is refused begins with 0, as does a list of which nothing is done");
        for (const Root *root : roots) {
            if (root->owner == nullptr) return Answer{0, METRONOME_BAD_SLOT};
            if (root->owner != mutator) return Answer{0, METRONOME_OTHER_MUTATOR};
        }
        return mutator->call(function, given...);
    }
    template <typename Answer, typename... Taken, typename... Given>
    Answer ask(std::initializer_list<const Root *> roots, Answer (*function)(metronome *, std::uint32_t, Taken...),
               Given... given) const noexcept { return ask_for(owner, roots, function, given...); }
    template <typename... Given>
    std::uint32_t act(std::initializer_list<const Root *> roots, Given... given) const noexcept {
        return detail::status_of(ask(roots, given...));
    }

    detail::MutatorState *owner;
    std::uint32_t slot;
};

// A mutator of a heap. It is live until it goes out of scope; then its slots are set to null.
class Mutator {
public:
    // Makes the mutator of this number. Returns OK, ALREADY_LIVE if there is a `Mutator` of that number, NO_MUTATOR, NO_MEMORY, or on a
    // closed or shared heap why there is none.
    static std::uint32_t try_join(Heap &heap, std::uint32_t number, std::optional<Mutator> &mutator) noexcept {
        if (!heap.state) return METRONOME_NO_HEAP;
        detail::HeapState &its_heap = *heap.state;
        if (number < detail::MOST_MUTATORS && its_heap.used[number]) return METRONOME_ALREADY_LIVE;
        std::unique_ptr<detail::MutatorState> made(new (std::nothrow) detail::MutatorState(its_heap, number));
        if (!made) return METRONOME_NO_MEMORY;
        const std::uint32_t status = detail::status_of(metronome_join(heap.handle(), number));
        if (status == METRONOME_BAD_SLOT) return METRONOME_NO_MUTATOR;
        if (status != METRONOME_OK && status != METRONOME_ALREADY_LIVE) return status;
        its_heap.used.set(number);
        made->is_on = true;
        mutator.emplace(Mutator(std::move(made)));
        return METRONOME_OK;
    }

    // Makes a root that holds null. Returns SLOTS_USED if each slot of the mutator is a root already.
    std::uint32_t try_null(std::optional<Root> &root) noexcept {
        if (state->left == 0) return METRONOME_SLOTS_USED;
        root.emplace(Root(*state));
        return METRONOME_OK;
    }

    std::uint32_t try_new_plain(std::uint32_t refs, std::uint32_t words, Root &into) noexcept {
        return act({&into}, metronome_new_plain, into.slot, refs, words);
    }
    // Makes a new object. Its first reference cells get the references of the `held_count` roots `held`, and its first word cells get
    // `word_count` words: at most 252 together.
    std::uint32_t try_new_with(std::uint32_t refs, std::uint32_t words, const Root *const *held, std::size_t held_count,
                               const std::uint64_t *contents, std::size_t word_count, Root &into, std::uint32_t &done) noexcept {
        std::array<std::uint32_t, 252> slots{};
        done = 0;
        if (held_count > slots.size()) return METRONOME_TOO_LARGE;
        for (std::size_t i = 0; i < held_count; i++) {
            if (held[i]->owner != state.get()) return held[i]->owner == nullptr ? METRONOME_BAD_SLOT : METRONOME_OTHER_MUTATOR;
            slots[i] = held[i]->slot;
        }
        return detail::tell(
            ask({&into}, metronome_new_with, into.slot, refs, words, slots.data(), held_count, contents, word_count), done);
    }
    std::uint32_t try_new_refs(std::uint32_t refs, Root &into) noexcept { return act({&into}, metronome_new_refs, into.slot, refs); }
    std::uint32_t try_new_words(std::uint32_t words, Root &into) noexcept {
        return act({&into}, metronome_new_words, into.slot, words);
    }
    std::uint32_t try_load_static(std::uint32_t k, Root &into) noexcept { return act({&into}, metronome_load_static, into.slot, k); }
    std::uint32_t try_store_static(std::uint32_t k, const Root &from) noexcept {
        return act({&from}, metronome_store_static, k, from.slot);
    }
    std::uint32_t try_compare_static(std::uint32_t k, const Root &expect, const Root &replacement, bool &stored) noexcept {
        return detail::tell_kind(ask({&expect, &replacement}, metronome_compare_static, k, expect.slot, replacement.slot), stored);
    }

#ifdef __cpp_exceptions
    Mutator(Heap &heap, std::uint32_t number) {
        std::optional<Mutator> made;
        detail::need(try_join(heap, number, made));
        state = std::move(made->state);
    }

    Root null() { return Root::null_of(*state); }
    Root new_plain(std::uint32_t refs, std::uint32_t words) {
        Root made = null();
        new_plain(refs, words, made);
        return made;
    }
    void new_plain(std::uint32_t refs, std::uint32_t words, Root &into) { detail::need(try_new_plain(refs, words, into)); }
    Root new_with(std::uint32_t refs, std::uint32_t words, std::initializer_list<const Root *> held,
                  std::initializer_list<std::uint64_t> contents) {
        Root made = null();
        std::uint32_t done = 0;
        detail::need(try_new_with(refs, words, held.begin(), held.size(), contents.begin(), contents.size(), made, done));
        return made;
    }
    Root new_refs(std::uint32_t refs) {
        Root made = null();
        detail::need(try_new_refs(refs, made));
        return made;
    }
    Root new_words(std::uint32_t words) {
        Root made = null();
        detail::need(try_new_words(words, made));
        return made;
    }
    Root load_static(std::uint32_t k) {
        Root loaded = null();
        detail::need(try_load_static(k, loaded));
        return loaded;
    }
    void store_static(std::uint32_t k, const Root &from) { detail::need(try_store_static(k, from)); }
    bool compare_static(std::uint32_t k, const Root &expect, const Root &replacement) {
        return detail::got([&](bool &stored) { return try_compare_static(k, expect, replacement, stored); });
    }
#endif

private:
    explicit Mutator(std::unique_ptr<detail::MutatorState> made) noexcept : state(std::move(made)) {}

    template <typename Answer, typename... Taken, typename... Given>
    Answer ask(std::initializer_list<const Root *> roots, Answer (*function)(metronome *, std::uint32_t, Taken...),
               Given... given) const noexcept { return Root::ask_for(state.get(), roots, function, given...); }
    template <typename... Given>
    std::uint32_t act(std::initializer_list<const Root *> roots, Given... given) const noexcept {
        return detail::status_of(ask(roots, given...));
    }

    std::unique_ptr<detail::MutatorState> state;
};

} // namespace barleynight

#endif
