/* Plans two steps of one store, and shows that no plan loses less. */
#include <rudlayog.h>
#include <stdio.h>
#include <string.h>

static const char setup[] = "[[store]]\nid = \"SCI\"\nsize = 4\ntype = \"bounded\"\nchannel = 0\n";
static const char forecast[] = "step,window,SCI\n1,2,5\n2,3,3\n";

static void complain(const struct rudlayog_refused *refused) {
    uint8_t words[1024];
    struct rudlayog_answer answer;
    rudlayog_words(refused, words, sizeof words, &answer);
    fprintf(stderr, "%.*s\n", answer.status == RUDLAYOG_WRITTEN ? (int)answer.length : 0, (const char *)words);
}

int main(void) {
    static uint8_t plan[RUDLAYOG_PLAN_ROOM], line[RUDLAYOG_LINE_ROOM];
    const uint8_t *const setup_text = (const uint8_t *)setup, *const forecast_text = (const uint8_t *)forecast;
    struct rudlayog_answer planned, checked;
    struct rudlayog_verdict verdict;

    rudlayog_plan(setup_text, strlen(setup), forecast_text, strlen(forecast), plan, sizeof plan, &planned);
    if (planned.status != RUDLAYOG_WRITTEN) {
        complain(&planned.refused);
        return 1;
    }
    fwrite(plan, 1, planned.length, stdout);

    rudlayog_check(setup_text, strlen(setup), forecast_text, strlen(forecast), plan, planned.length, line, sizeof line, &verdict, &checked);
    if (checked.status != RUDLAYOG_WRITTEN) {
        complain(&checked.refused);
        return 1;
    }
    fwrite(line, 1, checked.length, stdout);
    return verdict.kind == RUDLAYOG_LEAST ? 0 : 1;
}
