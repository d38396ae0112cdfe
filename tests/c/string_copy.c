#include "haft.h"
#include <stdio.h>
#include <string.h>
int main(void) {
    char room[40];
    strcpy(room, "one");
    strcat(room, ", two");
    strncat(room, ", three and more", 7);
    puts(room);
    haft_out(strlen(room));
    char *comma = strchr(room, ','), *last = strrchr(room, ',');
    haft_out(comma - room);
    haft_out(last - room);
    haft_out(strstr(room, "two") - room);
    memmove(room + 2, room, 10);
    puts(room);
    return 0;
}
