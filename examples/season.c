/* A season with a saved stock: two tasks draw from a dealing, the program ends and starts again, and what is left passes to the next
 * dealing. It keeps its stock in season.stock, in the folder where it runs, and removes it at the end. */
#include <expander_companion.h>

#include <stdio.h>

enum { TASKS = 2 };

/* Deals, and opens the noise end's record; the scalar record would go to the other end. */
static struct companion_status open_dealing(uint64_t label, size_t outputs, struct companion_end *end)
{
    static struct companion_dealt dealt;
    struct companion_sizes sizes = {EXPANDER_BINARY, 10, 2, 64, 32, 0};
    struct companion_status status;
    sizes.outputs = outputs;
    status = companion_deal(&sizes, companion_label(label), &dealt);
    COMPANION_NEXT(status, companion_open(dealt.noise, dealt.noise_len, end));
    companion_wipe(&dealt, sizeof dealt);
    return status;
}

/* A task draws outputs, which are spent on disk before it has them, and expands them. */
static struct companion_status use(struct companion_stock *stock, const struct companion_end *end, uint64_t label, size_t task, size_t count)
{
    struct companion_window window;
    size_t first;
    struct companion_status status = companion_draw(stock, NULL, companion_label(label), task, count, &first);
    COMPANION_NEXT(status, companion_expand(end, first, count, &window));
    if (status.number == 0) {
        printf(" task %d has %d to %d;", (int)task, (int)first, (int)(first + count - 1));
        companion_free_window(&window);
    }
    return status;
}

static struct companion_status season(struct companion_stock *stock, struct companion_end *spring, struct companion_end *autumn)
{
    static const uint32_t shares[TASKS] = {150, 100};
    struct companion_status status = open_dealing(1, 256, spring);
    COMPANION_NEXT(status, open_dealing(2, 200, autumn)); /* a higher label */
    COMPANION_NEXT(status, companion_create_stock("season.stock", companion_label(1), spring->head.outputs, shares, TASKS, stock));
    printf("spring:");
    COMPANION_NEXT(status, use(stock, spring, 1, 0, 60));
    companion_close_stock(stock);
    printf(" the program ends and starts again;"); /* its records are kept, as the file is */
    COMPANION_NEXT(status, companion_open_stock("season.stock", companion_label(1), stock));
    COMPANION_NEXT(status, use(stock, spring, 1, 0, 10));
    COMPANION_NEXT(status, use(stock, spring, 1, 1, 40));
    printf(" autumn:"); /* left are 80 and 60 */
    COMPANION_NEXT(status, companion_pass(stock, companion_label(2), autumn->head.outputs));
    COMPANION_NEXT(status, use(stock, autumn, 2, 1, 60));
    return status;
}

int main(void)
{
    static struct companion_end spring, autumn;
    static struct companion_stock stock;
    struct companion_status status, after;
    char text[300];
    size_t first;
    remove("season.stock"); /* of a run that was cut short */
    status = season(&stock, &spring, &autumn);
    companion_text(status, text, sizeof text);
    printf(" %s\n", text);
    after = companion_draw(&stock, NULL, companion_label(1), 0, 1, &first); /* spring is out of use */
    companion_text(after, text, sizeof text);
    printf("then: %s\n", text);
    companion_close_stock(&stock);
    companion_close(&spring);
    companion_close(&autumn);
    remove("season.stock");
    remove("season.stock.lock");
    return status.number != 0 || after.number != EXPANDER_LABEL_NOT_IN_USE;
}
