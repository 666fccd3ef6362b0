/* Uses the library as its README says: a tree as JSON, a short buffer, and a fault with its place. */
#include <stdio.h>
#include <tera.h>

int main(void) {
    struct tera_source page = {"Hi {{ user.name }}", 18, NULL, NULL}, wrong = {"{{ a b }}", 9, NULL, NULL};
    struct tera_fault fault;
    char text[4096];
    size_t needed = 0;
    if (tera_json(&page, text, sizeof text, &needed) != TERA_WRITTEN) return 1;
    if (fwrite(text, 1, needed, stdout) != needed) return 2;
    if (tera_tree(&page, text, 1, &needed) != TERA_SHORT || needed < 2) return 3;
    if (tera_tree(&wrong, NULL, 0, NULL) != TERA_FAULTY) return 4;
    if (tera_fault(&wrong, text, sizeof text, &needed, &fault) != TERA_WRITTEN || fault.span.start != 5) return 5;
    printf("\n%s %d %lu:%lu: %.*s\n", TERA_VERSION, TERA_VERSION_NUMBER, (unsigned long)fault.span.start_line,
           (unsigned long)fault.span.start_col, (int)needed, text);
    return 0;
}
