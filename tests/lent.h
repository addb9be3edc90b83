/* What the harnesses share: memory that ends at a fence, so that a read or a write past the end stops the program and
 * names the call, and a script on standard input, a call a line, whose answers go to standard output. */
#ifndef LENT_H
#define LENT_H
#include <stddef.h>
#include <stdint.h>

enum { BEFORE = 0xAA }; /* what a buffer lent to be written holds at every place before its first call */
enum { ROOM = 1 << 21 };
enum { NO_POINT = 255 };

/* A call of a script: its word, how many words it has with that one, and who asks it. */
struct call {
    const char *word;
    size_t words;
    void (*ask)(char **word);
};

/* Stops the program and names the call being answered. */
_Noreturn void stop(const char *why);

/* From then on a fault names the call being answered, and which that is: a line of the script, which must stay. */
void watch(void);
void name_call(size_t number, const char *text);

/* Memory of ROOM octets with a fence behind it that may not be touched; gives the fence's address. */
uint8_t *fenced(void);

/* Lays a word's octets right before a fence; gives where they start and how many they are. */
uint8_t *lay(const char *word, uint8_t *fence, size_t *count);

size_t number(const char *word, size_t most);
uint8_t octet(const char *word);
uint8_t point(const char *word); /* an access point, `-` for none */

void say_point(uint8_t point);
void say_octets(const uint8_t *octets, size_t count);

/* Asks each line of standard input. */
int answer_all(const struct call *calls, size_t count);

#endif
