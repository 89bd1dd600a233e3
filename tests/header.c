/* The header by itself, as C11 and as C++17: its version, and a message for each number.  usage: header */
#include <podrulka.h>
#include <podrulka.h> /* once more: the guard holds */
#include <inttypes.h>
#include <stdio.h>
#include <string.h>

int main(void) {
    char version[32];
    snprintf(version, sizeof version, "%d.%d.%d", PODRULKA_VERSION_MAJOR, PODRULKA_VERSION_MINOR, PODRULKA_VERSION_PATCH);
    int wrong = strcmp(version, PODRULKA_VERSION) != 0;
    if (wrong) printf("the version is %s and its parts are %s\n", PODRULKA_VERSION, version);
    /* each number from 0 to 12 has a message that no other number has; from 13 on there is none */
    for (uint32_t i = 0; i <= PODRULKA_INDEX + 1; i++)
        for (uint32_t j = 0; j < i; j++)
            if (strcmp(podrulka_message(i), podrulka_message(j)) == 0) {
                printf("%" PRIu32 " and %" PRIu32 " have one message\n", j, i);
                wrong = 1;
            }
    if (strcmp(podrulka_message(PODRULKA_INDEX + 1), podrulka_message(UINT32_MAX)) != 0) {
        printf("a number beyond the last has a message of its own\n");
        wrong = 1;
    }
    return wrong;
}
