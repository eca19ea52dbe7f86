/* Prints the header's version as its text says it, and ends with 1 if its number says another. */
#include <stdio.h>
#include <string.h>

#include "leveecrumb.h"

#if LEVEECRUMB_VERSION_NUMBER < 1000
#error "the version's number is no number for the preprocessor, or too small"
#endif

int main(void)
{
    const int number = LEVEECRUMB_VERSION_NUMBER;
    char text[64];
    sprintf(text, "%d.%d.%d", number / 1000000, number / 1000 % 1000, number % 1000);
    printf("%s\n", LEVEECRUMB_VERSION);
    return strcmp(text, LEVEECRUMB_VERSION) != 0;
}
