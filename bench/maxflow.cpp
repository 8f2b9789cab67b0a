// What a user could build instead: reads a setup and a forecast, solves the network of the problem by libmaxflow (Boykov and
// Kolmogorov), and writes the plan and what it loses.
//
//     maxflow SETUP FORECAST

#include <maxflow.h>

#include <charconv>
#include <cstdio>
#include <cstdlib>
#include <fstream>
#include <iterator>
#include <string>
#include <string_view>
#include <vector>

using Graph = maxflow::Graph_III;

constexpr int CHANNELS = 8;
// No arc bears as much.
constexpr int UNLIMITED = 1 << 30;

struct Store {
    std::string_view id;
    int size = 0, start = 0, channel = 0;
};

struct Problem {
    std::vector<Store> stores;
    int limits[CHANNELS];
    std::vector<int> windows;
    // step by step, in each the stores in order
    std::vector<int> arrivals;
};

static std::string text_of(const char *path) {
    std::ifstream file(path, std::ios::binary);
    return {std::istreambuf_iterator<char>(file), {}};
}

static std::string_view next(std::string_view &rest, char end) {
    size_t at = rest.find(end);
    std::string_view word = rest.substr(0, at);
    rest = at == rest.npos ? std::string_view() : rest.substr(at + 1);
    return word;
}

static int number(std::string_view word) {
    int value = -1;
    std::from_chars(word.data(), word.data() + word.size(), value);
    if (value < 0 || value > 1000000) std::exit(2);
    return value;
}

static void read_setup(Problem &problem, std::string_view rest) {
    std::string_view table;
    int channel = 0;
    for (int &limit : problem.limits) limit = UNLIMITED;
    while (!rest.empty()) {
        std::string_view line = next(rest, '\n');
        if (line.substr(0, 2) == "[[") {
            table = line;
            if (table == "[[store]]") problem.stores.emplace_back();
            continue;
        }
        size_t at = line.find(" = ");
        if (at == line.npos) continue;
        std::string_view key = line.substr(0, at), value = line.substr(at + 3);
        if (table == "[[store]]") {
            Store &store = problem.stores.back();
            if (key == "id") store.id = value.substr(1, value.size() - 2);
            if (key == "size") store.size = number(value);
            if (key == "start") store.start = number(value);
            if (key == "channel") store.channel = number(value) % CHANNELS;
        }
        if (table == "[[limit]]") {
            if (key == "channel") channel = number(value) % CHANNELS;
            if (key == "blocks") problem.limits[channel] = number(value);
        }
    }
}

static void read_forecast(Problem &problem, std::string_view rest) {
    next(rest, '\n');
    while (!rest.empty()) {
        std::string_view line = next(rest, '\n');
        next(line, ',');
        problem.windows.push_back(number(next(line, ',')));
        while (!line.empty()) problem.arrivals.push_back(number(next(line, ',')));
    }
}

int main(int, char **words) {
    std::string setup = text_of(words[1]), forecast = text_of(words[2]);
    Problem problem;
    read_setup(problem, setup);
    read_forecast(problem, forecast);

    // the nodes of a step: an in-node and an out-node of each store, the channels, the pass
    int stores = problem.stores.size(), steps = problem.windows.size(), width = 2 * stores + CHANNELS + 1;
    Graph graph(width * steps, (3 * stores + CHANNELS) * steps);
    graph.add_node(width * steps);
    long long lost = 0;
    for (int step = 0; step < steps; step++) {
        int in = width * step, out = in + stores, channels = out + stores, pass = channels + CHANNELS;
        for (int place = 0; place < stores; place++) {
            const Store &store = problem.stores[place];
            int inflow = problem.arrivals[step * stores + place] + (step == 0 ? store.start : 0);
            lost += inflow;
            graph.add_tweights(in + place, inflow, 0);
            graph.add_edge(in + place, out + place, store.size, 0);
            graph.add_edge(out + place, channels + store.channel, UNLIMITED, 0);
            if (step + 1 < steps) graph.add_edge(out + place, in + width + place, UNLIMITED, 0);
            else graph.add_tweights(out + place, 0, UNLIMITED);
        }
        for (int channel = 0; channel < CHANNELS; channel++) graph.add_edge(channels + channel, pass, problem.limits[channel], 0);
        graph.add_tweights(pass, 0, problem.windows[step]);
    }
    lost -= graph.maxflow();

    std::string plan = "mmplan 1\nstores";
    for (const Store &store : problem.stores) plan.append(" ").append(store.id);
    auto arc = graph.get_first_arc();
    for (int step = 0; step < steps; step++) {
        plan.append("\ndump ").append(std::to_string(step + 1));
        // arcs stand in the order in which they were added, each with its reverse behind it
        for (int place = 0; place < stores; place++) {
            arc += 2;
            plan.append(" ").append(std::to_string(UNLIMITED - graph.get_rcap(arc)));
            arc += step + 1 < steps ? 4 : 2;
        }
        arc += 2 * CHANNELS;
    }
    plan.append("\nloss ").append(std::to_string(lost)).append("\n");
    std::fwrite(plan.data(), 1, plan.size(), stdout);
}
