// A run in C++ that is recorded: a chain of cells that grows and loses its first ones. The heap is a shared one, whose turn the program
// keeps.
#include "metronome.hpp"
#include "metronome_record.h"
#include <cstdio>

using namespace barleynight;

// Makes cells, each of which the one before refers to, and forgets the first where there are more than a hundred. Records each cell.
static bool makes_cells(Heap &heap, metronome_recording &recording) {
    Mutator mutator(heap, 0);
    Root first = mutator.new_plain(1, 1), last = mutator.null();
    bool whole = true;
    last.assign(first);
    for (std::uint32_t n = 1; n < 3000; n++) {
        Root cell = mutator.new_plain(1, 1 + n % 7);
        cell.put(0, n);
        last.store(0, cell);
        last = std::move(cell);
        if (n > 100) first.load(0, first);
        if (n % 16 == 0) {
            heap.begin();
            heap.quantum(1000);
        }
        whole = metronome_record(&recording, heap.handle()) && whole;
    }
    return whole;
}

int main() {
    std::FILE *files[] = { std::fopen("roots.toml", "w"), std::fopen("roots.trace", "w"), std::fopen("roots.history", "w") };
    const metronome_settings settings = METRONOME_SETTINGS(16, 1, 8);
    metronome_recording recording;
    Heap heap;
    bool whole = metronome_record_begin(&recording, &settings, files[0], files[1], files[2]);
    whole = heap.try_open_shared(settings, 64) == METRONOME_OK && metronome_enter(heap.handle()) == METRONOME_OK && whole;
    whole = makes_cells(heap, recording) && metronome_record(&recording, heap.handle()) && recording.lost == 0 && whole;
    for (std::FILE *file : files) whole = file != nullptr && std::fclose(file) == 0 && whole;
    std::printf("%d passed, %d failed\n", whole ? 1 : 0, whole ? 0 : 1);
    return whole ? 0 : 1;
}
