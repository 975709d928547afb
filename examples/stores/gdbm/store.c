/* Stores pairs of words by GDBM and acknowledges each, or prints all. The first word says how the
   file is opened: sync (GDBM_SYNC, without a mapping), mapped (with a mapping, and gdbm_sync after
   each row) or all. Build: cc store.c -lgdbm -o store */
#include <gdbm.h>
#include <stdio.h>
#include <stdlib.h>
#include <string.h>

static void fail(void) {
    printf("%s\n", gdbm_strerror(gdbm_errno));
    exit(1);
}

static datum text(char *word) {
    datum made = {word, (int)strlen(word)};
    return made;
}

static void print_all(GDBM_FILE file) {
    for (datum key = gdbm_firstkey(file); key.dptr; key = gdbm_nextkey(file, key)) {
        datum value = gdbm_fetch(file, key);
        if (!value.dptr)
            fail();
        printf("%.*s %.*s\n", key.dsize, key.dptr, value.dsize, value.dptr);
    }
    if (gdbm_errno != GDBM_ITEM_NOT_FOUND && gdbm_errno != GDBM_NO_ERROR)
        fail();
}

int main(int count, char **words) {
    int is_sync = !strcmp(words[1], "sync"), is_mapped = !strcmp(words[1], "mapped");
    int flags = GDBM_WRCREAT | (is_sync ? GDBM_SYNC | GDBM_NOMMAP : 0);
    GDBM_FILE file = gdbm_open("rows.gdbm", 512, flags, 0644, NULL);
    if (!file)
        fail();
    for (int word = 2; word + 1 < count; word += 2) {
        if (gdbm_store(file, text(words[word]), text(words[word + 1]), GDBM_REPLACE))
            fail();
        if (is_mapped && gdbm_sync(file))
            fail();
        printf("%s %s\n", words[word], words[word + 1]);
        fflush(stdout);
    }
    if (!is_sync && !is_mapped)
        print_all(file);
    gdbm_close(file);
    return 0;
}
