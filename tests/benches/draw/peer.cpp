// The peer: solves the networks of sheets by LEMON's network simplex, and tells how long it takes. With the
// argument `plain` it does so in the plainest form and with LEMON's own settings, else in the form and
// with the settings that were the fastest of those tried.
//
// Standard input has one network after the other, in 32-bit numbers: how many nodes and arcs it has, and
// for each arc its tail, its head, the least and the greatest flow, and the cost of each unit. Standard
// output gets two 64-bit numbers for each: the nanoseconds from building the graph to the solution, and
// the least cost. Before each network the one before is solved once more, untimed: then the caches are
// warm, and the branches are not learnt.

#include <algorithm>
#include <cstdint>
#include <cstdio>
#include <cstring>
#include <ctime>
#include <limits>
#include <vector>

#include <lemon/network_simplex.h>
#include <lemon/smart_graph.h>

using Graph = lemon::SmartDigraph;
using Simplex = lemon::NetworkSimplex<Graph, int, int>;

// More than any flow; the least flow of an arc without limits is this negated.
const int UNLIMITED = std::numeric_limits<int>::max();
// In networks of fewer nodes the pivot rule is another one.
const int FEW = 48;

struct Arc {
    int tail, head, least, greatest, cost;
};

struct Network {
    int nodes;
    std::vector<Arc> arcs;
};

// Numbers of arcs or nodes by their index, as LEMON reads them.
template <typename Item> struct Numbers {
    typedef Item Key;
    typedef int Value;
    const Graph &graph;
    const std::vector<int> &numbers;
    int operator[](Item item) const { return numbers[graph.id(item)]; }
};

// The processor time of this thread in nanoseconds.
int64_t now() {
    timespec time;
    clock_gettime(CLOCK_THREAD_CPUTIME_ID, &time);
    return int64_t(time.tv_sec) * 1000000000 + time.tv_nsec;
}

// The least cost of a circulation in the network.
//
// In the plain form each flow of either sign is two arcs. In the fast form one with limits is one arc that
// carries the flow above its least, and its ends get the least flow as a supply and a demand; in small
// networks the arc is turned around and the pivot rule is another one. The arcs are not mixed.
int64_t solve(const Network &network, bool is_plain) {
    const int nodes = network.nodes;
    const bool is_small = !is_plain && nodes < FEW;
    const std::vector<Arc> &arcs = network.arcs;
    Graph graph;
    std::vector<int> capacities, costs, supplies(nodes);
    graph.reserveNode(nodes);
    graph.reserveArc(2 * arcs.size());
    capacities.reserve(2 * arcs.size());
    costs.reserve(2 * arcs.size());
    auto add = [&](int tail, int head, int capacity, int cost) {
        graph.addArc(graph.nodeFromId(tail), graph.nodeFromId(head));
        capacities.push_back(capacity);
        costs.push_back(cost);
    };
    for (int node = 0; node < nodes; node++)
        graph.addNode();
    for (const Arc &arc : arcs) {
        if (arc.least == 0) {
            add(arc.tail, arc.head, arc.greatest, arc.cost);
        } else if (is_plain || arc.least == -UNLIMITED) {
            add(arc.tail, arc.head, arc.greatest, arc.cost);
            add(arc.head, arc.tail, -arc.least, -arc.cost);
        } else {
            int tail = arc.tail, head = arc.head;
            if (is_small)
                std::swap(tail, head);
            add(tail, head, arc.greatest - arc.least, arc.cost);
            supplies[tail] -= arc.least;
            supplies[head] += arc.least;
        }
    }
    Simplex simplex(graph, is_plain);
    simplex.upperMap(Numbers<Graph::Arc>{graph, capacities});
    simplex.costMap(Numbers<Graph::Arc>{graph, costs});
    simplex.supplyMap(Numbers<Graph::Node>{graph, supplies});
    simplex.run(is_small ? Simplex::BEST_ELIGIBLE : Simplex::BLOCK_SEARCH);
    return simplex.totalCost<int64_t>();
}

// Reads a network, if there is one more.
bool read(Network &network) {
    int sizes[2];
    if (std::fread(sizes, sizeof sizes, 1, stdin) != 1)
        return false;
    network.nodes = sizes[0];
    network.arcs.resize(sizes[1]);
    return std::fread(network.arcs.data(), sizeof(Arc), sizes[1], stdin) == size_t(sizes[1]);
}

int main(int count, char **arguments) {
    const bool is_plain = count > 1 && std::strcmp(arguments[1], "plain") == 0;
    // what reading the clock takes
    int64_t reading = std::numeric_limits<int64_t>::max();
    for (int i = 0; i < 1000; i++) {
        const int64_t start = now();
        reading = std::min(reading, now() - start);
    }
    Network network, before = {1, {}};
    while (read(network)) {
        solve(before, is_plain);
        const int64_t start = now();
        const int64_t cost = solve(network, is_plain);
        const int64_t answer[2] = {now() - start - reading, cost};
        std::fwrite(answer, sizeof answer, 1, stdout);
        std::fflush(stdout);
        std::swap(network, before);
    }
}
