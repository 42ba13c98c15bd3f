// A front stepped by hand: a look at each step, the step, and the mesh in steps of the motor bowl.
#include <iostream>

#include "sitjorbe.hpp"

int main() {
    const sitjorbe::outline square({{0, 0}, {2, 0}, {2, 2}, {0, 2}});
    auto mesh = sitjorbe::paver(1.0, 400, 0).pave(square); // no passes: the sampled outline alone
    if (!mesh) {
        std::cerr << mesh.words() << '\n';
        return 1;
    }
    for (std::uint32_t a = 0; a < mesh->node_count(); a++) {
        const std::uint32_t b = mesh->next()[a];
        if (b == SITJORBE_OFF)
            continue;
        auto look = mesh->preview(a, b);
        auto outcome = mesh->step(a, b);
        if (!look || !outcome) {
            std::cerr << outcome.words() << '\n';
            return 1;
        }
        if (*outcome == SITJORBE_OUTCOME_PLACED)
            std::cout << "edge " << a << " to " << b << ": a quad with " << look->new_nodes << " new nodes\n";
    }
    std::cout << mesh->node_count() << " nodes and " << mesh->quad_count() << " quads\n";
    if (auto steps = mesh->bowl_steps())
        std::cout << "node 8 stands at " << (*steps)[16] << " and " << (*steps)[17] << " steps\n";
}
