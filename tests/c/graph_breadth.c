#include "haft.h"
#include <string.h>
static const char map[7][8] = {"S..#...", ".#.#.#.", ".#...#.", ".####.#", ".....#.", ".###...", "...#..E"};
int main(void) {
    int far[7][7], queue[49], head = 0, tail = 0;
    memset(far, -1, sizeof far);
    far[0][0] = 0;
    queue[tail++] = 0;
    while (head < tail) {
        int r = queue[head] / 7, c = queue[head] % 7;
        head++;
        static const int dr[] = {0, 1, 0, -1}, dc[] = {1, 0, -1, 0};
        for (int k = 0; k < 4; k++) {
            int i = r + dr[k], j = c + dc[k];
            if (i < 0 || j < 0 || i > 6 || j > 6 || map[i][j] == '#' || far[i][j] >= 0)
                continue;
            far[i][j] = far[r][c] + 1;
            queue[tail++] = 7 * i + j;
        }
    }
    haft_out(far[6][6]);
    haft_out(tail);
    return 0;
}
