// The calls over the cuckoohash_map of libcuckoo.
//
// usage: cuckoo_map CALLERS CALLS FIRST
//        cuckoo_map script WORKERS

#include <libcuckoo/cuckoohash_map.hh>

#include "serving.hpp"

class CuckooMap {
public:
    Answer put(uint64_t key, uint64_t value) {
        Answer before;
        const auto set = [&](uint64_t& place) {
            before = place;
            place = value;
        };
        map.upsert(key, set, value);
        return before;
    }

    Answer get(uint64_t key) const {
        uint64_t value;
        return map.find(key, value) ? Answer(value) : Answer();
    }

    Answer del(uint64_t key) {
        Answer before;
        const auto is_deleted = [&](uint64_t& place) {
            before = place;
            return true;
        };
        map.erase_fn(key, is_deleted);
        return before;
    }

    Pairs pairs() const {
        const auto locked = map.lock_table();
        return Pairs(locked.begin(), locked.end());
    }

private:
    // (a const map gives no locked table)
    mutable libcuckoo::cuckoohash_map<uint64_t, uint64_t> map;
};

int main(int count, char** words) { return run<CuckooMap>(count, words); }
