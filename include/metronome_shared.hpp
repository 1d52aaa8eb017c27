/*
 * metronome_shared.hpp: turns at the shared heap of metronome_shared.h for C++17. A turn is given back when it goes out of scope.
 * This is plain C++ over those calls, and nothing of it is proved.
 *
 * Heap::try_open_shared makes a shared heap, and Heap::try_sit more handles at it. In a turn all calls of its `Heap`, of its
 * mutators and of their roots may be made; out of it each is refused as OUTSIDE.
 */
#ifndef METRONOME_SHARED_HPP
#define METRONOME_SHARED_HPP

#include "metronome.hpp"

namespace barleynight {

// A gate, at which the threads of one heap wait for the turn. It must outlive the turns.
class Gate {
public:
    Gate() = default;
    Gate(const Gate &) = delete;
    Gate &operator=(const Gate &) = delete;

    // Makes a fair gate, as METRONOME_GATE_FAIR does.
    static Gate fair(std::uint32_t turns) noexcept { return Gate(turns); }

    metronome_gate *handle() noexcept { return &gate; }

private:
    explicit Gate(std::uint32_t turns) noexcept : gate METRONOME_GATE_FAIR(turns) {}

    metronome_gate gate = METRONOME_GATE;
};

// The turn of a heap, taken at a gate and kept until it goes out of scope. The heap stays where it is, and open, as long as the turn.
class Turn {
public:
    // Waits for the turn. Returns the statuses of metronome_gate_enter.
    static std::uint32_t try_enter(Gate &gate, Heap &heap, std::optional<Turn> &turn) noexcept {
        const std::uint32_t status = metronome_gate_enter(gate.handle(), heap.handle());
        if (status == METRONOME_OK) turn.emplace(Turn(heap, gate));
        return status;
    }

    Turn(Turn &&other) noexcept : heap(other.heap), gate(std::exchange(other.gate, nullptr)) {}
    Turn &operator=(Turn &&) = delete;
    Turn(const Turn &) = delete;
    Turn &operator=(const Turn &) = delete;
    ~Turn() {
        if (gate != nullptr) metronome_gate_exit(gate->handle(), heap.handle());
    }

#ifdef __cpp_exceptions
    Turn(Gate &its_gate, Heap &its_heap) : Turn(its_heap, its_gate) {
        const std::uint32_t status = metronome_gate_enter(gate->handle(), heap.handle());
        if (status != METRONOME_OK) gate = nullptr;
        detail::need(status);
    }
#endif

    Heap &heap;

private:
    Turn(Heap &its_heap, Gate &its_gate) noexcept : heap(its_heap), gate(&its_gate) {}

    Gate *gate;
};

} // namespace barleynight

#endif
