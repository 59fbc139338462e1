// A survey layer with an import that belongs to no domain, and a memory that the portal lends.
__attribute__((import_module("portal"), import_name("draw_label"))) void draw_label(const char *text, int len);

__attribute__((export_name("legend"))) void legend(void) {
    draw_label("depth in metres", 15);
}
