/* What the driver asks of the board. */
#ifndef BOARD_H
#define BOARD_H

/* Writes a text that ends with a zero byte. */
void put(const char *text);

#endif
