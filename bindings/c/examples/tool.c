/* What `mm_tool` does with files, over the library:
 *
 *   tool plan SETUP FORECAST
 *   tool check SETUP FORECAST PLAN
 *   tool chart SETUP FORECAST PLAN
 *   tool table SETUP FORECAST PLAN
 *   tool sensitivity SETUP FORECAST
 *   tool ask SETUP REQUESTS
 *   tool read PACKETS
 *
 * The status is 0 where all is done, 1 where something is refused or a plan is not told to lose least, and 2 where the command line or a file is
 * not well. */
#include "../rudlayog.h"
#include <stdio.h>
#include <stdlib.h>
#include <string.h>

struct text {
    uint8_t *octets;
    size_t length;
};

/* What a call needs, and what it leaves. Packets that are read stand in the place of the setup. */
struct call {
    struct text setup, second, plan;
    struct rudlayog_verdict verdict;
    uint32_t outcome;
    struct rudlayog_answer answer;
};

typedef void act(struct call *call, uint8_t *out, size_t room);

static void plan(struct call *call, uint8_t *out, size_t room) {
    rudlayog_plan(call->setup.octets, call->setup.length, call->second.octets, call->second.length, out, room, &call->answer);
}

static void check(struct call *call, uint8_t *out, size_t room) {
    rudlayog_check(call->setup.octets, call->setup.length, call->second.octets, call->second.length, call->plan.octets, call->plan.length,
                   out, room, &call->verdict, &call->answer);
}

static void chart(struct call *call, uint8_t *out, size_t room) {
    rudlayog_chart(call->setup.octets, call->setup.length, call->second.octets, call->second.length, call->plan.octets, call->plan.length,
                   out, room, &call->answer);
}

static void table(struct call *call, uint8_t *out, size_t room) {
    rudlayog_table(call->setup.octets, call->setup.length, call->second.octets, call->second.length, call->plan.octets, call->plan.length,
                   out, room, &call->answer);
}

static void sensitivity(struct call *call, uint8_t *out, size_t room) {
    rudlayog_sensitivity(call->setup.octets, call->setup.length, call->second.octets, call->second.length, out, room, &call->answer);
}

static void read_packets(struct call *call, uint8_t *out, size_t room) {
    rudlayog_read(call->setup.octets, call->setup.length, out, room, &call->outcome, &call->answer);
}

static void ask(struct call *call, uint8_t *out, size_t room) {
    rudlayog_ask(call->setup.octets, call->setup.length, call->second.octets, call->second.length, out, room, &call->outcome,
                 &call->answer);
}

/* A command, with the number of its files and a first guess of the room that its text needs. */
struct command {
    const char *name;
    int files;
    size_t room;
    act *act;
};

static const struct command commands[] = {
    {"plan", 2, RUDLAYOG_PLAN_ROOM, plan},
    {"check", 3, RUDLAYOG_LINE_ROOM, check},
    {"chart", 3, 131072, chart},
    {"table", 3, 131072, table},
    {"sensitivity", 2, 16384, sensitivity},
    {"ask", 2, 4096, ask},
    {"read", 1, 4096, read_packets},
};

/* Reads a file whole; the octets are null where that fails. */
static struct text read_file(const char *name) {
    struct text text = {NULL, 0};
    size_t room = 4096, got;
    FILE *file = fopen(name, "rb");
    if (file == NULL) {
        return text;
    }
    text.octets = malloc(room);
    while (text.octets != NULL && (got = fread(text.octets + text.length, 1, room - text.length, file)) > 0) {
        text.length += got;
        if (text.length == room) {
            uint8_t *more = realloc(text.octets, room *= 2);
            if (more == NULL) {
                free(text.octets);
            }
            text.octets = more;
        }
    }
    if (ferror(file)) {
        free(text.octets);
        text.octets = NULL;
    }
    fclose(file);
    return text;
}

/* Makes the call, a second time where the first guess was too small. The text is null where there is none. */
static uint8_t *make(const struct command *command, struct call *call) {
    size_t room = command->room;
    uint8_t *out = malloc(room);
    if (out == NULL) {
        return NULL;
    }
    command->act(call, out, room);
    if (call->answer.status == RUDLAYOG_TOO_SMALL) {
        free(out);
        room = call->answer.length;
        out = malloc(room);
        if (out == NULL) {
            return NULL;
        }
        command->act(call, out, room);
    }
    return out;
}

/* The octets of a text, of which there may be none. */
static const uint8_t *octets_of(const struct text *text) {
    static const uint8_t none[1];
    return text->octets == NULL ? none : text->octets;
}

/* Prints what is found in the texts that are refused, if more can be said of them. */
static void print_hint(const struct call *call) {
    uint8_t hint[RUDLAYOG_HINT_ROOM];
    struct rudlayog_answer said;
    rudlayog_hint(octets_of(&call->setup), call->setup.length, octets_of(&call->second), call->second.length, octets_of(&call->plan),
                  call->plan.length, &call->answer.refused, hint, sizeof hint, &said);
    if (said.status == RUDLAYOG_WRITTEN && said.length > 0) {
        fprintf(stderr, "hint: %.*s\n", (int)said.length, (const char *)hint);
    }
}

/* Prints the text or the refusal. */
static int print(const struct call *call, const uint8_t *out) {
    uint8_t words[RUDLAYOG_WORDS_ROOM];
    struct rudlayog_answer said;
    if (call->answer.status == RUDLAYOG_WRITTEN) {
        fwrite(out, 1, call->answer.length, stdout);
        const bool is_less = call->verdict.kind != RUDLAYOG_NO_VERDICT && !rudlayog_is_least(call->verdict.kind);
        return is_less || call->outcome == RUDLAYOG_SOME_REFUSED;
    }
    rudlayog_words(&call->answer.refused, words, sizeof words, &said);
    if (said.status == RUDLAYOG_WRITTEN) {
        fprintf(stderr, "%.*s\n", (int)said.length, (const char *)words);
    } else {
        fprintf(stderr, "refused %u\n", (unsigned)call->answer.refused.number);
    }
    print_hint(call);
    return 1;
}

static int run(const struct command *command, char **names) {
    struct call call = {0};
    struct text *const texts[] = {&call.setup, &call.second, &call.plan};
    uint8_t *out = NULL;
    int status = 2, read = 0;
    while (read < command->files && (*texts[read] = read_file(names[read])).octets != NULL) {
        read++;
    }
    if (read < command->files) {
        fprintf(stderr, "not read: %s\n", names[read]);
    } else if ((out = make(command, &call)) == NULL) {
        fprintf(stderr, "out of memory\n");
    } else {
        status = print(&call, out);
    }
    free(out);
    while (read > 0) {
        free(texts[--read]->octets);
    }
    return status;
}

int main(int count, char **words) {
    for (size_t k = 0; k < sizeof commands / sizeof commands[0]; k++) {
        if (count == commands[k].files + 2 && strcmp(words[1], commands[k].name) == 0) {
            return run(&commands[k], words + 2);
        }
    }
    fprintf(stderr, "usage: tool plan SETUP FORECAST | check SETUP FORECAST PLAN | chart SETUP FORECAST PLAN | table SETUP FORECAST PLAN | "
                    "ask SETUP REQUESTS | read PACKETS\n");
    return 2;
}
