// An exam on a paved square: thresholds, both figures, an estimate, and what a masked reader may not ask.
#include <iostream>

#include "sitjorbe.hpp"

int main() {
    const sitjorbe::outline square({{0, 0}, {2, 0}, {2, 2}, {0, 2}});
    auto mesh = sitjorbe::paver(1.0).pave(square);
    if (!mesh) {
        std::cerr << mesh.words() << '\n';
        return 1;
    }
    sitjorbe::exam exam = mesh->exam();
    for (std::uint32_t node = 0; node < mesh->node_count(); node++)
        if (const auto entered = exam.enter(node, 300 + node); !entered)
            std::cerr << entered.words() << '\n';
    std::cout << exam.count() << " quads of " << mesh->quad_count() << " have all thresholds, with the sum " << exam.sum() << '\n';
    if (auto estimate = exam.estimate(0, 128, 128))
        std::cout << "in the middle of quad 0 " << *estimate << " tenths of a decibel\n";

    const auto masked = exam.read({SITJORBE_MASKED_READER, SITJORBE_READ_THRESHOLD, 0, 0, 0, 0});
    std::cout << sitjorbe_refusal_words(masked.refusal) << '\n';
    std::cout << "testing from the last quad on: " << sitjorbe_refusal_words(mesh->check_order({3, 2, 1, 0}).refusal) << '\n';
}
