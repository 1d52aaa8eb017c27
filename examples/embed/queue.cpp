// A queue of numbers in the heap, from C++: the classes of metronome.hpp own the heap, and the slots that it is named by.
#include "metronome.hpp"
#include <cstdio>
#include <string>

using namespace barleynight;

// The first cell and the last. Each has a reference to the next one, and a word.
class Queue {
public:
    explicit Queue(Mutator &mutator) : mutator(mutator), first(mutator.null()), last(mutator.null()) {}

    void push(std::uint64_t word) {
        Root cell = mutator.new_plain(1, 1);
        cell.put(0, word);
        if (is_empty()) first.assign(cell);
        else last.store(0, cell);
        last = std::move(cell);
    }

    std::uint64_t pop() {
        const std::uint64_t word = first.get(0);
        first.load(0, first);
        return word;
    }

    bool is_empty() const { return first.is_null(); }

private:
    Mutator &mutator;
    Root first, last;
};

static int passed, failed;

static void check(bool holds) { (holds ? passed : failed)++; }

int main() {
    metronome_settings settings = METRONOME_SETTINGS(8, 1, 4);
    Heap heap(settings);
    Mutator mutator(heap, 0);
    Queue queue(mutator);
    bool in_order = true;
    for (std::uint64_t n = 0; n < 100000; n++) {
        queue.push(n);
        if (n >= 100) in_order = in_order && queue.pop() == n - 100;
        if (n % 16 == 0) {
            heap.begin();
            heap.quantum(1000);
        }
    }
    check(in_order);
    for (int n = 0; n < 100; n++) queue.pop();
    check(queue.is_empty());
    std::string told;
    settings.rate = 0;
    try {
        Heap faulty(settings);
    } catch (const Refusal &refusal) {
        told = refusal.what();
    }
    check(told == "rate is out of range");
    std::printf("%d passed, %d failed\n", passed, failed);
    return failed != 0;
}
