// Paves a square with a hole, and prints the figures of its mesh.
#include <iostream>

#include "sitjorbe.hpp"

int main() {
    sitjorbe::outline field({{0, 0}, {8, 0}, {8, 8}, {0, 8}});
    field.hole({{2, 2}, {2, 4}, {4, 4}, {4, 2}});

    auto mesh = sitjorbe::paver(1.0).pave(field);
    if (!mesh) {
        std::cerr << mesh.words() << '\n';
        return 1;
    }
    std::cout << mesh->node_count() << " nodes, " << mesh->quad_count() << " quads, " << (mesh->whole() ? "whole" : "open") << '\n';
    const auto [a, b, d, c] = mesh->quad(0);
    std::cout << "quad 0: " << a << ' ' << b << ' ' << d << ' ' << c << ", node " << d << " at " << mesh->node(d).x << ", " << mesh->node(d).y << '\n';
    for (const auto &loop : mesh->loops())
        std::cout << "a ring of " << loop.size() << " nodes is left open, from node " << loop[0] << '\n';

    const auto refused = sitjorbe::paver(-1.0).pave(field);
    std::cout << refused.words() << '\n';
}
