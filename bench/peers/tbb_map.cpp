// The calls over the concurrent_hash_map of oneTBB.
//
// usage: tbb_map CALLERS CALLS FIRST
//        tbb_map script WORKERS

#include <tbb/concurrent_hash_map.h>

#include "serving.hpp"

class TbbMap {
public:
    Answer put(uint64_t key, uint64_t value) {
        Map::accessor place;
        const bool is_new = map.insert(place, key);
        const Answer before = is_new ? Answer() : Answer(place->second);
        place->second = value;
        return before;
    }

    Answer get(uint64_t key) const {
        Map::const_accessor place;
        return map.find(place, key) ? Answer(place->second) : Answer();
    }

    Answer del(uint64_t key) {
        Map::accessor place;
        if (!map.find(place, key)) return Answer();
        const Answer before(place->second);
        map.erase(place);
        return before;
    }

    Pairs pairs() const { return Pairs(map.begin(), map.end()); }

private:
    using Map = tbb::concurrent_hash_map<uint64_t, uint64_t>;
    Map map;
};

int main(int count, char** words) { return run<TbbMap>(count, words); }
