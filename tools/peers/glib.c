/* Asks GLib about each line of standard input: 'ROW ONE ALIGNMENT FIXED'.
   ROW: whether the text is complete types in a row (g_variant_type_string_scan, again and again up to the end); 'yes' or
   'no'. ONE: whether it is one complete type (g_variant_type_string_is_valid). For one definite type, how GLib lays it out:
   its alignment in bytes, and 'yes' or 'no' for whether its size is fixed; otherwise '-'. These two come from functions
   that the library exports without a public header. */
#include <glib.h>
#include <stdio.h>
#include <stdlib.h>
#include <string.h>
#include <sys/types.h>

typedef struct _GVariantTypeInfo GVariantTypeInfo;
GVariantTypeInfo *g_variant_type_info_get(const GVariantType *type);
void g_variant_type_info_query(GVariantTypeInfo *info, guint *alignment, gsize *size);
void g_variant_type_info_unref(GVariantTypeInfo *info);

int main(void) {
    char *line = NULL;
    size_t room = 0;
    ssize_t n;
    while ((n = getline(&line, &room, stdin)) >= 0) {
        if (n > 0 && line[n - 1] == '\n') line[--n] = 0;
        const char *at = line, *end = line + n;
        while (at < end && g_variant_type_string_scan(at, end, &at)) {}
        gboolean one = g_variant_type_string_is_valid(line);
        printf("%s %s ", at == end ? "yes" : "no", one ? "yes" : "no");
        if (one && g_variant_type_is_definite((const GVariantType *)line)) {
            guint mask;
            gsize size;
            GVariantTypeInfo *info = g_variant_type_info_get((const GVariantType *)line);
            g_variant_type_info_query(info, &mask, &size);
            g_variant_type_info_unref(info);
            printf("%u %s\n", mask + 1, size ? "yes" : "no");
        } else
            puts("- -");
    }
    free(line);
    return 0;
}
