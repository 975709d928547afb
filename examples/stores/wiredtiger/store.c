/* Stores pairs of words by WiredTiger with a log that is synced, each in a transaction, and
   acknowledges each; or prints all. The first word is log or all.
   Build: cc store.c -lwiredtiger -o store */
#include <stdio.h>
#include <stdlib.h>
#include <string.h>
#include <wiredtiger.h>

static const char *const options =
    "create,log=(enabled),transaction_sync=(enabled,method=fsync),checkpoint_sync=true";

static void check(int status) {
    if (status) {
        printf("%s\n", wiredtiger_strerror(status));
        exit(1);
    }
}

static void print_all(WT_CURSOR *cursor) {
    const char *key, *value;
    int status;
    while (!(status = cursor->next(cursor))) {
        check(cursor->get_key(cursor, &key));
        check(cursor->get_value(cursor, &value));
        printf("%s %s\n", key, value);
    }
    if (status != WT_NOTFOUND)
        check(status);
}

static void put(WT_SESSION *session, WT_CURSOR *cursor, char **words) {
    check(session->begin_transaction(session, NULL));
    cursor->set_key(cursor, words[0]);
    cursor->set_value(cursor, words[1]);
    check(cursor->insert(cursor));
    check(session->commit_transaction(session, NULL));
    printf("%s %s\n", words[0], words[1]);
    fflush(stdout);
}

int main(int count, char **words) {
    WT_CONNECTION *connection;
    WT_SESSION *session;
    WT_CURSOR *cursor;
    check(wiredtiger_open(".", NULL, options, &connection));
    check(connection->open_session(connection, NULL, NULL, &session));
    check(session->create(session, "table:rows", "key_format=S,value_format=S"));
    check(session->open_cursor(session, "table:rows", NULL, NULL, &cursor));
    if (!strcmp(words[1], "all"))
        print_all(cursor);
    for (int word = 2; word + 1 < count; word += 2)
        put(session, cursor, words + word);
    check(connection->close(connection, NULL));
    return 0;
}
