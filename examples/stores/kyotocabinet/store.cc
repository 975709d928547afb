// Stores pairs of words by Kyoto Cabinet, each with a copy in a hard transaction, and acknowledges
// each; or prints all, which must have their copies. The first word is the kind: hash or tree. No file is mapped (msiz=0). Build: c++ store.cc -lkyotocabinet -o store
#include <cstdio>
#include <cstdlib>
#include <iostream>
#include <kcpolydb.h>
#include <string>

using kyotocabinet::PolyDB;

static PolyDB database;

static void fail() {
    std::cout << database.error().name() << std::endl;
    std::exit(1);
}

static void check_copy(const std::string &key, const std::string &value) {
    std::string copy = key[0] == '+' ? key.substr(1) : '+' + key, found;
    if (!database.get(copy, &found) || found != value) {
        std::cout << "half: a transaction is there in part" << std::endl;
        std::exit(1);
    }
    if (key[0] != '+')
        std::cout << key << ' ' << value << std::endl;
}

static void print_all() {
    PolyDB::Cursor *cursor = database.cursor();
    std::string key, value;
    for (cursor->jump(); cursor->get(&key, &value, true);)
        check_copy(key, value);
    if (database.error() != PolyDB::Error::NOREC && database.error() != PolyDB::Error::SUCCESS)
        fail();
    delete cursor;
}

int main(int count, char **words) {
    std::string name = std::string(words[1]) == "hash" ? "rows.kch#msiz=0" : "rows.kct#msiz=0";
    if (!database.open(name, PolyDB::OWRITER | PolyDB::OCREATE))
        fail();
    if (count == 2)
        print_all();
    for (int word = 2; word + 1 < count; word += 2) {
        std::string key = words[word], value = words[word + 1];
        if (!database.begin_transaction(true) || !database.set(key, value) ||
            !database.set('+' + key, value) || !database.end_transaction(true))
            fail();
        std::cout << key << ' ' << value << std::endl;
    }
    if (!database.close())
        fail();
}
