/* Every part on a thread whose stack is the one that the header promises to be enough. */
#include "check.h"
#include "on_stack.h"

typedef struct Part {
    const char *name;
    void (*run)(void);
} Part;

static const Part parts[] = {
    {"small games", small_games}, {"boards", boards},   {"game calls", game_calls},     {"damage", damage},
    {"histories", histories},     {"lengths", lengths}, {"random games", random_games}, {"threads", threads},
};

static void run(void *at)
{
    const Part *part = at;
    part->run();
}

int main(void)
{
    /* a part that ends by a signal has its name printed */
    setvbuf(stdout, NULL, _IONBF, 0);
    for (size_t i = 0; i < sizeof parts / sizeof parts[0]; i++) {
        size_t before = checks, failed = failures;
        Part part = parts[i];
        printf("%s: ", part.name);
        end_on_stack(start_on_stack(run, &part));
        printf("%zu checks, %zu failed\n", checks - before, failures - failed);
    }
    /* every number was answered, and no other */
    for (unsigned number = 0; number < 256; number++) {
        bool known = number <= SAMTREKHU_BAD_COLOUR || number == SAMTREKHU_BAD_KIND;
        if (!CHECK((met[number] != 0) == known)) {
            printf("  number %u was answered %u times\n", number, met[number]);
        }
    }
    printf("all: %zu checks, %zu failed\n", checks, failures);
    return failures == 0 ? 0 : 1;
}
