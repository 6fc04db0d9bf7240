// What the peers written in C++ share: the generated calls, or those of a script on standard input, served by workers that
// draw callers, and what is printed of it. For generated calls each caller has a worker. The maps give no order of all calls,
// so calls have no numbers, and a run has 0 in their place.
//
// A map has put, get and del, each of which answers the value that the key had, and pairs.

#pragma once

#include <atomic>
#include <cstdint>
#include <iostream>
#include <map>
#include <optional>
#include <string>
#include <thread>
#include <vector>

using Answer = std::optional<uint64_t>;
using Pairs = std::map<uint64_t, uint64_t>;
using Answers = std::vector<std::vector<Answer>>;

enum class Kind { put, get, del };

struct Call {
    Kind kind;
    uint64_t key;
    uint64_t value;
};

class Generator {
public:
    explicit Generator(uint64_t first) : state(first) {}

    Call call(uint64_t caller, uint64_t callers) {
        const uint64_t kind = draw() % 4;
        const uint64_t key = caller + callers * (draw() % 256);
        if (kind < 2) return {Kind::put, key, draw()};
        return {kind == 2 ? Kind::get : Kind::del, key, 0};
    }

private:
    uint64_t draw() {
        state = state * 6364136223846793005u + 1442695040888963407u;
        return state >> 33;
    }

    uint64_t state;
};

inline std::vector<std::vector<Call>> made_script(uint64_t callers, uint64_t calls, uint64_t first) {
    Generator generator(first);
    std::vector<std::vector<Call>> script(callers);
    for (uint64_t caller = 0; caller < callers; ++caller) {
        script[caller].reserve(calls);
        for (uint64_t made = 0; made < calls; ++made) script[caller].push_back(generator.call(caller, callers));
    }
    return script;
}

template <class Map>
void serve(Map& map, const std::vector<Call>& calls, std::vector<Answer>& answers) {
    answers.reserve(calls.size());
    for (const Call& call : calls) {
        switch (call.kind) {
            case Kind::put: answers.push_back(map.put(call.key, call.value)); break;
            case Kind::get: answers.push_back(map.get(call.key)); break;
            case Kind::del: answers.push_back(map.del(call.key)); break;
        }
    }
}

// The answers to each caller's calls, by so many workers that draw callers.
template <class Map>
Answers serve_all(Map& map, const std::vector<std::vector<Call>>& script, size_t workers) {
    Answers answers(script.size());
    std::atomic<size_t> next{0};
    std::vector<std::thread> threads;
    for (size_t worker = 0; worker < workers; ++worker) {
        threads.emplace_back([&] {
            for (size_t caller = next++; caller < script.size(); caller = next++) serve(map, script[caller], answers[caller]);
        });
    }
    for (std::thread& thread : threads) thread.join();
    return answers;
}

inline std::vector<std::vector<Call>> read_script() {
    std::ios::sync_with_stdio(false);
    std::vector<std::vector<Call>> script;
    std::string word;
    while (std::cin >> word) {
        if (word == "caller") {
            script.emplace_back();
            continue;
        }
        Call call{word == "put" ? Kind::put : word == "get" ? Kind::get : Kind::del, 0, 0};
        std::cin >> call.key;
        if (call.kind == Kind::put) std::cin >> call.value;
        script.back().push_back(call);
    }
    return script;
}

template <class Map>
void print_run(const Map& map, const Answers& answers) {
    for (size_t caller = 0; caller < answers.size(); ++caller) {
        std::cout << "caller " << caller << '\n';
        for (const Answer& answer : answers[caller]) {
            if (answer) std::cout << "0 " << *answer << '\n';
            else std::cout << "0 none\n";
        }
    }
    std::cout << "map\n";
    for (const auto& [key, value] : map.pairs()) std::cout << key << ' ' << value << '\n';
    std::cout << "end\n";
}

template <class Map>
void print_summary(const Map& map, const Answers& answers) {
    uint64_t calls = 0, found = 0, sum = 0;
    for (const auto& of_caller : answers) {
        calls += of_caller.size();
        for (const Answer& answer : of_caller) found += answer.has_value();
    }
    const Pairs pairs = map.pairs();
    for (const auto& [key, value] : pairs) sum += key * value;
    std::cout << "callers " << answers.size() << "\ncalls " << calls << "\nfound " << found << "\nnone " << calls - found
              << "\nfull 0\npairs " << pairs.size() << "\nsum " << sum << "\n";
}

// Serves what the words ask for over the map, and returns the status of the program.
template <class Map>
int run(int count, char** words) {
    Map map;
    if (count == 3 && std::string(words[1]) == "script") {
        const auto script = read_script();
        print_run(map, serve_all(map, script, std::stoull(words[2])));
        return 0;
    }
    if (count != 4) {
        std::cerr << "usage: " << words[0] << " CALLERS CALLS FIRST, or " << words[0] << " script WORKERS\n";
        return 1;
    }
    const auto script = made_script(std::stoull(words[1]), std::stoull(words[2]), std::stoull(words[3]));
    print_summary(map, serve_all(map, script, script.size()));
    return 0;
}
