// A survey layer that works in a memory and through a table, both lent by the portal: how much of them it asks for stands in its imports.
// The portal puts a row of depths into the memory, and keeps its pens in the table; a layer draws with the one that it is told.
__attribute__((import_module("portal"), import_name("pen"))) int pen(int depth);

enum { COLUMNS = 64 };

typedef void Pen(int row, int column);

static short depths[COLUMNS];

__attribute__((export_name("depths"))) short *depths_of_a_row(void) {
    return depths;
}

__attribute__((export_name("relief"))) void relief(int row) {
    for (int column = 0; column < COLUMNS; column++) {
        ((Pen *)pen(depths[column]))(row, column);
    }
}
