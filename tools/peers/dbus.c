/* Asks libdbus, for each line of standard input, whether the text is a signature: 'yes' or 'no'.
   With the argument 'align': the alignment with which libdbus writes a value of each kind after one byte. */
#include <dbus/dbus.h>
#include <stdint.h>
#include <stdio.h>
#include <stdlib.h>
#include <string.h>

static void validate(void) {
    char *line = NULL;
    size_t room = 0;
    ssize_t n;
    while ((n = getline(&line, &room, stdin)) >= 0) {
        if (n > 0 && line[n - 1] == '\n') line[--n] = 0;
        puts(dbus_signature_validate(line, NULL) ? "yes" : "no");
    }
    free(line);
}

/* The place, in the body, of the first byte other than 0 after the first byte. */
static int place(DBusMessage *m) {
    char *data;
    int size;
    uint32_t body;
    if (!dbus_message_marshal(m, &data, &size)) exit(2);
    memcpy(&body, data + 4, 4);
    const char *start = data + size - body;
    for (uint32_t i = 1; i < body; i++)
        if (start[i]) { dbus_free(data); return (int)i; }
    exit(2);
}

static DBusMessage *begin(DBusMessageIter *it) {
    DBusMessage *m = dbus_message_new_signal("/a", "a.b", "C");
    unsigned char y = 1;
    dbus_message_set_serial(m, 1);
    dbus_message_iter_init_append(m, it);
    dbus_message_iter_append_basic(it, DBUS_TYPE_BYTE, &y);
    return m;
}

static void align(void) {
    uint64_t ones = ~0ull;
    double d = -1.1;
    dbus_bool_t b = TRUE;
    const char *s = "x", *o = "/a", *g = "y";
    struct { char code; const void *value; } basics[] = {
        {'y', &ones}, {'b', &b}, {'n', &ones}, {'q', &ones}, {'i', &ones}, {'u', &ones}, {'x', &ones}, {'t', &ones},
        {'d', &d}, {'s', &s}, {'g', &g}, {'o', &o}};
    DBusMessageIter it, sub, entry;
    for (size_t i = 0; i < sizeof basics / sizeof *basics; i++) {
        DBusMessage *m = begin(&it);
        dbus_message_iter_append_basic(&it, basics[i].code, basics[i].value);
        printf("%c %d\n", basics[i].code, place(m));
        dbus_message_unref(m);
    }
    DBusMessage *m = begin(&it);
    dbus_message_iter_open_container(&it, DBUS_TYPE_VARIANT, "y", &sub);
    dbus_message_iter_append_basic(&sub, DBUS_TYPE_BYTE, &ones);
    dbus_message_iter_close_container(&it, &sub);
    printf("v %d\n", place(m));
    dbus_message_unref(m);
    m = begin(&it); /* the second descriptor's index is 1; the first stands right before it */
    int fd = 0;
    dbus_message_iter_append_basic(&it, DBUS_TYPE_UNIX_FD, &fd);
    dbus_message_iter_append_basic(&it, DBUS_TYPE_UNIX_FD, &fd);
    printf("h %d\n", place(m) - 4);
    dbus_message_unref(m);
    m = begin(&it);
    dbus_message_iter_open_container(&it, DBUS_TYPE_ARRAY, "y", &sub);
    dbus_message_iter_append_basic(&sub, DBUS_TYPE_BYTE, &ones);
    dbus_message_iter_close_container(&it, &sub);
    printf("ay %d\n", place(m));
    dbus_message_unref(m);
    m = begin(&it);
    dbus_message_iter_open_container(&it, DBUS_TYPE_ARRAY, "{yy}", &sub);
    dbus_message_iter_open_container(&sub, DBUS_TYPE_DICT_ENTRY, NULL, &entry);
    dbus_message_iter_append_basic(&entry, DBUS_TYPE_BYTE, &ones);
    dbus_message_iter_append_basic(&entry, DBUS_TYPE_BYTE, &ones);
    dbus_message_iter_close_container(&sub, &entry);
    dbus_message_iter_close_container(&it, &sub);
    printf("a{yy} %d\n", place(m));
    dbus_message_unref(m);
    m = begin(&it);
    dbus_message_iter_open_container(&it, DBUS_TYPE_STRUCT, NULL, &sub);
    dbus_message_iter_append_basic(&sub, DBUS_TYPE_BYTE, &ones);
    dbus_message_iter_close_container(&it, &sub);
    printf("(y) %d\n", place(m));
    dbus_message_unref(m);
}

int main(int argc, char **argv) {
    if (argc > 1 && !strcmp(argv[1], "align")) align(); else validate();
    return 0;
}
