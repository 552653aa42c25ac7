// Builds GUDHI's simplex tree of a list of pentachorons, each inserted with all its faces, for the comparison with our builder.
#include <gudhi/Simplex_tree.h>

#include <boost/range/irange.hpp>
#include <boost/range/iterator_range.hpp>

#include <cstddef>
#include <cstdint>

namespace {

// Options of our own: neither keys nor filtration values are stored.
struct Bare {
    typedef Gudhi::linear_indexing_tag Indexing_tag;
    typedef int Vertex_handle;
    typedef float Filtration_value;
    typedef std::uint32_t Simplex_key;
    static const bool store_key = false;
    static const bool store_filtration = false;
    static const bool contiguous_vertices = true;
};

// The tree, with all vertices inserted first: the options with contiguous vertices ask for it, and it is faster with the others too.
template <class Options>
Gudhi::Simplex_tree<Options> *build(std::size_t n_vertices, const std::uint32_t *pents, std::size_t length)
{
    auto *tree = new Gudhi::Simplex_tree<Options>;
    tree->insert_batch_vertices(boost::irange(0, static_cast<int>(n_vertices)));
    for (const std::uint32_t *pent = pents; pent != pents + length; pent += 5)
        tree->insert_simplex_and_subfaces(boost::make_iterator_range(pent, pent + 5));
    return tree;
}

// How many simplices a tree has, all vertices among them; releases it.
template <class Options>
std::size_t release(void *address)
{
    auto *tree = static_cast<Gudhi::Simplex_tree<Options> *>(address);
    std::size_t count = tree->num_simplices();
    delete tree;
    return count;
}

typedef Gudhi::Simplex_tree_options_full_featured Full;
typedef Gudhi::Simplex_tree_options_fast_persistence Fast;

}  // namespace

// The tree with options 0, 1 or 2: the default ones, those for fast persistence, the bare ones.
extern "C" void *gudhi_build(int options, std::size_t n_vertices, const std::uint32_t *pents, std::size_t length)
{
    switch (options) {
    case 0:
        return build<Full>(n_vertices, pents, length);
    case 1:
        return build<Fast>(n_vertices, pents, length);
    default:
        return build<Bare>(n_vertices, pents, length);
    }
}

// How many simplices a tree with these options has; releases it.
extern "C" std::size_t gudhi_release(int options, void *tree)
{
    switch (options) {
    case 0:
        return release<Full>(tree);
    case 1:
        return release<Fast>(tree);
    default:
        return release<Bare>(tree);
    }
}
