// Boost's dijkstra_shortest_paths from each router of some topologies; with the argument no_color_map Boost's function
// dijkstra_shortest_paths_no_color_map, which does the same. They find distances, and no next hops.
// Standard input: the numbers of routers, of rounds and of topologies, and for each topology the number of its links
// and the links, each as its two ends and its metric. Standard output: the nanoseconds of processor time of each round,
// in which all topologies are searched, and then all distances. The graphs are built before the first round.
#include <boost/graph/adjacency_list.hpp>
#include <boost/graph/dijkstra_shortest_paths.hpp>
#include <boost/graph/dijkstra_shortest_paths_no_color_map.hpp>

#include <ctime>
#include <deque>
#include <iostream>
#include <string>
#include <vector>

using Weight = boost::property<boost::edge_weight_t, int>;
using Graph = boost::adjacency_list<boost::vecS, boost::vecS, boost::directedS, boost::no_property, Weight>;

// Reads the links of a topology into its graph.
static void read_links(Graph &graph) {
    std::size_t links = 0;
    std::cin >> links;
    for (std::size_t k = 0; k < links; k++) {
        std::size_t from = 0, to = 0;
        int metric = 0;
        std::cin >> from >> to >> metric;
        boost::add_edge(from, to, metric, graph);
    }
}

// Fills the table with the distances between all routers.
static void search(const Graph &graph, bool has_color_map, std::vector<int> &table) {
    const std::size_t routers = boost::num_vertices(graph);
    for (std::size_t source = 0; source < routers; source++) {
        const auto row = boost::distance_map(&table[routers * source]);
        if (has_color_map) {
            boost::dijkstra_shortest_paths(graph, source, row);
        } else {
            boost::dijkstra_shortest_paths_no_color_map(graph, source, row);
        }
    }
}

// The processor time of this process, in nanoseconds.
static long long now() {
    timespec spent = {};
    clock_gettime(CLOCK_PROCESS_CPUTIME_ID, &spent);
    return spent.tv_sec * 1000000000LL + spent.tv_nsec;
}

int main(int count, char **words) {
    const bool has_color_map = count < 2 || std::string(words[1]) != "no_color_map";
    std::ios::sync_with_stdio(false);
    std::size_t routers = 0, rounds = 0, topologies = 0;
    std::cin >> routers >> rounds >> topologies;
    std::deque<Graph> graphs;
    for (std::size_t k = 0; k < topologies; k++) {
        read_links(graphs.emplace_back(routers));
    }
    if (!std::cin) {
        return 1;
    }
    std::vector<std::vector<int>> tables(topologies, std::vector<int>(routers * routers));
    for (std::size_t round = 0; round < rounds; round++) {
        const long long start = now();
        for (std::size_t k = 0; k < topologies; k++) {
            search(graphs[k], has_color_map, tables[k]);
        }
        std::cout << now() - start << '\n';
    }
    for (const auto &table : tables) {
        for (int distance : table) {
            std::cout << distance << '\n';
        }
    }
}
