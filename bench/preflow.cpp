// The greatest flow of a site text at each of the three levels, by the Preflow of LEMON: another program to compare with.
//
//     g++ -O2 -o preflow bench/preflow.cpp && ./preflow < SITE
//
// It writes a line for each level, lowest first, with the number of accounts that the flow accepts; and to the standard error
// the processor seconds that the three solves took, those of making the graphs, and the whole. The certificates of a pair must not be given twice.

#include <lemon/preflow.h>
#include <lemon/smart_graph.h>

#include <algorithm>
#include <array>
#include <ctime>
#include <iostream>
#include <stdexcept>
#include <string>
#include <unordered_map>
#include <vector>

namespace {

constexpr std::array<const char*, 3> kLevels = {"Apprentice", "Journeyer", "Master"};
constexpr int kUnbounded = 1'000'000;

struct Cert {
    int from;
    int to;
    int level;
};

struct Site {
    std::vector<int> caps;
    std::vector<std::string> names;
    std::vector<int> seeds;
    std::vector<Cert> certs;
};

int level_of(const std::string& word) {
    for (std::size_t level = 0; level < kLevels.size(); ++level) {
        if (word == kLevels[level]) return static_cast<int>(level);
    }
    throw std::runtime_error("no grade: " + word);
}

void read_caps(std::istream& in, Site& site) {
    std::string word;
    in >> word >> word;
    if (word == "default") {
        site.caps = {800, 200, 50, 12, 4, 2, 1};
        return;
    }
    do {
        site.caps.push_back(std::stoi(word));
    } while (in.peek() != '\n' && in >> word);
}

Site read_site(std::istream& in) {
    Site site;
    std::unordered_map<std::string, int> numbers;
    std::string word;
    std::string giver;
    std::string taker;
    read_caps(in, site);
    while (in >> word) {
        if (word == "account") {
            in >> word;
            numbers.emplace(word, static_cast<int>(site.names.size()));
            site.names.push_back(word);
        } else if (word == "seed") {
            in >> word;
            site.seeds.push_back(numbers.at(word));
        } else if (word == "cert") {
            in >> giver >> taker >> word;
            site.certs.push_back({numbers.at(giver), numbers.at(taker), level_of(word)});
        } else {
            throw std::runtime_error("no line of a site: " + word);
        }
    }
    return site;
}

double processor_seconds() { return static_cast<double>(std::clock()) / CLOCKS_PER_SEC; }

// The capacity of each account at a level, by its distance from the root.
std::vector<int> capacities(const Site& site, int level) {
    const std::size_t accounts = site.names.size();
    std::vector<std::vector<int>> takers(accounts);
    for (const Cert& cert : site.certs) {
        if (cert.level >= level) takers[cert.from].push_back(cert.to);
    }
    std::vector<int> caps(accounts, 0);
    std::vector<int> layer = site.seeds;
    for (std::size_t distance = 1; !layer.empty(); ++distance) {
        const int capacity = site.caps[std::min(distance, site.caps.size() - 1)];
        for (int account : layer) caps[account] = capacity;
        std::vector<int> next;
        for (int account : layer) {
            for (int taker : takers[account]) {
                if (caps[taker] != 0) continue;
                caps[taker] = capacity;
                next.push_back(taker);
            }
        }
        layer = std::move(next);
    }
    return caps;
}

// Processor seconds: of making the split graphs with their capacities, and of the solves alone.
struct Seconds {
    double making = 0;
    double solving = 0;
};

// The accounts that a greatest flow through the split graph of a level accepts.
int accepted(const Site& site, int level, Seconds& seconds) {
    const double begun = processor_seconds();
    const std::vector<int> caps = capacities(site, level);
    const int accounts = static_cast<int>(site.names.size());
    lemon::SmartDigraph graph;
    graph.reserveNode(2 * accounts + 3);
    graph.reserveArc(2 * accounts + 1 + static_cast<int>(site.seeds.size() + site.certs.size()));
    for (int node = 0; node < 2 * accounts + 3; ++node) graph.addNode();
    const auto first_half = [&](int account) { return graph.nodeFromId(2 * account + 2); };
    const auto second_half = [&](int account) { return graph.nodeFromId(2 * account + 3); };
    const auto source = graph.nodeFromId(0);
    const auto root = graph.nodeFromId(1);
    const auto sink = graph.nodeFromId(2 * accounts + 2);
    lemon::SmartDigraph::ArcMap<int> capacity(graph);
    capacity[graph.addArc(source, root)] = site.caps[0] - 1;
    for (int account = 0; account < accounts; ++account) {
        capacity[graph.addArc(first_half(account), second_half(account))] = std::max(caps[account] - 1, 0);
        capacity[graph.addArc(first_half(account), sink)] = 1;
    }
    for (int seed : site.seeds) capacity[graph.addArc(root, first_half(seed))] = kUnbounded;
    for (const Cert& cert : site.certs) {
        if (cert.level >= level) capacity[graph.addArc(second_half(cert.from), first_half(cert.to))] = kUnbounded;
    }
    lemon::Preflow<lemon::SmartDigraph> preflow(graph, capacity, source, sink);
    const double made = processor_seconds();
    preflow.run();
    seconds.making += made - begun;
    seconds.solving += processor_seconds() - made;
    return preflow.flowValue();
}

}  // namespace

int main() {
    std::ios::sync_with_stdio(false);
    const Site site = read_site(std::cin);
    Seconds seconds;
    for (std::size_t level = 0; level < kLevels.size(); ++level) {
        std::cout << kLevels[level] << ' ' << accepted(site, static_cast<int>(level), seconds) << '\n';
    }
    std::cerr << "solves " << seconds.solving << " s, graphs " << seconds.making << " s, whole " << processor_seconds()
              << " s\n";
}
