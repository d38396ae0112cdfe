#include "haft.h"
#define N 6
#define FAR 1000000
int main(void) {
    int d[N][N];
    for (int i = 0; i < N; i++)
        for (int j = 0; j < N; j++)
            d[i][j] = i == j ? 0 : (i * 5 + j * 3) % 4 == 0 ? FAR : (i * 7 + j * 11) % 13 + 1;
    for (int k = 0; k < N; k++)
        for (int i = 0; i < N; i++)
            for (int j = 0; j < N; j++)
                if (d[i][k] + d[k][j] < d[i][j])
                    d[i][j] = d[i][k] + d[k][j];
    for (int i = 0; i < N; i++)
        for (int j = 0; j < N; j++)
            haft_out(d[i][j]);
    return 0;
}
