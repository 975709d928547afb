/* Stores pairs of words by Berkeley DB, each in a transaction, and acknowledges each; or prints all
   after a recovery. The first word is rows, nosync (DB_TXN_NOSYNC) or all.
   Build: cc store.c -ldb-5.3 -o store */
#include <db.h>
#include <stdio.h>
#include <stdlib.h>
#include <string.h>

static void check(int status) {
    if (status) {
        printf("%s\n", db_strerror(status));
        exit(1);
    }
}

static DBT text(char *word) {
    DBT made;
    memset(&made, 0, sizeof made);
    made.data = word;
    made.size = (unsigned)strlen(word);
    return made;
}

static void put(DB_ENV *environment, DB *database, char **words, unsigned flags) {
    DB_TXN *transaction;
    DBT key = text(words[0]), value = text(words[1]);
    check(environment->txn_begin(environment, NULL, &transaction, 0));
    check(database->put(database, transaction, &key, &value, 0));
    check(transaction->commit(transaction, flags));
    printf("%s %s\n", words[0], words[1]);
    fflush(stdout);
}

static void print_all(DB *database) {
    DBC *cursor;
    DBT key, value;
    int status;
    memset(&key, 0, sizeof key);
    memset(&value, 0, sizeof value);
    check(database->cursor(database, NULL, &cursor, 0));
    while (!(status = cursor->get(cursor, &key, &value, DB_NEXT)))
        printf("%.*s %.*s\n", (int)key.size, (char *)key.data, (int)value.size, (char *)value.data);
    if (status != DB_NOTFOUND)
        check(status);
    check(cursor->close(cursor));
}

int main(int count, char **words) {
    DB_ENV *environment;
    DB *database;
    unsigned parts = DB_INIT_MPOOL | DB_INIT_LOG | DB_INIT_TXN | DB_PRIVATE | DB_CREATE | DB_RECOVER;
    check(db_env_create(&environment, 0));
    environment->set_errfile(environment, NULL);
    check(environment->set_lg_max(environment, 1 << 16));
    check(environment->set_lg_bsize(environment, 1 << 13));
    check(environment->open(environment, ".", parts, 0644));
    check(db_create(&database, environment, 0));
    check(database->open(database, NULL, "rows.db", NULL, DB_BTREE, DB_CREATE | DB_AUTO_COMMIT, 0644));
    if (!strcmp(words[1], "all"))
        print_all(database);
    for (int word = 2; word + 1 < count; word += 2)
        put(environment, database, words + word, strcmp(words[1], "nosync") ? 0 : DB_TXN_NOSYNC);
    check(database->close(database, 0));
    check(environment->close(environment, 0));
    return 0;
}
