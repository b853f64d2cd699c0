/* The plain judgement written straight from the specification, as the peer to time against: byte marks, the lowest wire first,
 * live wires found again after each step, every set run to its end. It reads a routine that is known to be well formed.
 * Usage: peer ORDER < routine */
#include <stdio.h>
#include <stdlib.h>
#include <string.h>

struct wire { char kind; int a, b; };   /* kind: s share, r rand, p pub, x xor, a and, n not */

static struct wire wires[128];
static int secrets, shares, count_of_wires;

static int is_operand(int u, int v)
{
    const struct wire *w = &wires[u];
    if (w->kind == 'x' || w->kind == 'a') return w->a == v || w->b == v;
    return w->kind == 'n' && w->a == v;
}

static void find_live(const unsigned char *probe, const unsigned char *leaf, unsigned char *live)
{
    memcpy(live, probe, 128);
    for (int u = count_of_wires - 1; u >= 0; u--) {
        if (!live[u] || leaf[u]) continue;
        const struct wire *w = &wires[u];
        if (w->kind == 'x' || w->kind == 'a') live[w->a] = live[w->b] = 1;
        if (w->kind == 'n') live[w->a] = 1;
    }
}

static int serves(const unsigned char *probe, const unsigned char *leaf, const unsigned char *live, int w, int r)
{
    if (!leaf[r] || probe[r]) return 0;
    for (int u = 0; u < count_of_wires; u++)
        if (u != w && live[u] && !leaf[u] && is_operand(u, r)) return 0;
    return 1;
}

static int pad_lowest(const unsigned char *probe, unsigned char *leaf, const unsigned char *live)
{
    for (int w = 0; w < count_of_wires; w++) {
        if (!live[w] || leaf[w]) continue;
        int by_b = wires[w].kind == 'x' && wires[w].a != wires[w].b, by_a = by_b || wires[w].kind == 'n';
        if ((by_a && serves(probe, leaf, live, w, wires[w].a)) || (by_b && serves(probe, leaf, live, w, wires[w].b))) {
            leaf[w] = 1;
            return 1;
        }
    }
    return 0;
}

static int is_open(const int *set, int size, int order)
{
    unsigned char probe[128] = {0}, leaf[128] = {0}, live[128];
    for (int i = 0; i < size; i++) probe[set[i]] = 1;
    for (int w = 0; w < count_of_wires; w++) leaf[w] = wires[w].kind == 'r';
    do find_live(probe, leaf, live); while (pad_lowest(probe, leaf, live));
    for (int i = 0; i < secrets; i++) {
        int needed = 0;
        for (int j = 0; j < shares; j++) needed += live[i * shares + j];
        if (needed > order) return 1;
    }
    return 0;
}

static long judged;

static int grow(int *set, int size, int places, int from, int order)
{
    if (places == 0) {
        judged++;
        return is_open(set, size, order);
    }
    for (int w = from; w < count_of_wires; w++) {
        set[size] = w;
        if (grow(set, size + 1, places - 1, w + 1, order)) return 1;
    }
    return 0;
}

static void read_routine(void)
{
    char word[16];
    int w, a, b;
    while (scanf("%15s", word) == 1) {
        if (!strcmp(word, "routine")) {
            if (scanf("%d%d", &secrets, &shares) != 2) exit(2);
            count_of_wires = secrets * shares;
            for (w = 0; w < count_of_wires; w++) wires[w].kind = 's';
            continue;
        }
        if (scanf("%d", &w) != 1) exit(2);
        if (!strcmp(word, "out")) continue;
        a = b = 0;
        if (word[0] == 'x' || word[0] == 'a') { if (scanf("%d%d", &a, &b) != 2) exit(2); }
        if (word[0] == 'n') { if (scanf("%d", &a) != 1) exit(2); }
        wires[w] = (struct wire){ word[0], a, b };
        count_of_wires = w + 1;
    }
}

int main(int argc, char **argv)
{
    int order = argc > 1 ? atoi(argv[1]) : 1, set[4], open = 0, size;
    read_routine();
    for (size = 1; size <= order && !open; size++) open = grow(set, 0, size, 0, order);
    printf("plain %d %s %ld", order, open ? "open" : "pass", judged);
    for (int i = 0; open && i < size - 1; i++) printf(" %d", set[i]);
    printf("\n");
    return 0;
}
