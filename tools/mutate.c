// Runs a program on mutated words and inputs, each in a process of its own, and judges how it ends.
//
// usage: mutate PROGRAM CORPUS SEED FIRST COUNT KEPT
//
// CORPUS has four lists: calls, inputs, tokens of words, tokens of inputs. A list is a number and that many items; an
// item is a number and that many bytes; numbers have four bytes, least significant first. The words of a call end with
// a zero byte each. A case depends on SEED and its number alone. It writes `STATUS NUMBER` for each status that came,
// and `wrong CASE WHY` for each case that is wrong, whose words and input are kept in the folder KEPT.

#define _GNU_SOURCE
#include <errno.h>
#include <fcntl.h>
#include <signal.h>
#include <spawn.h>
#include <stdint.h>
#include <stdio.h>
#include <stdlib.h>
#include <string.h>
#include <sys/mman.h>
#include <sys/resource.h>
#include <sys/wait.h>
#include <time.h>
#include <unistd.h>

enum { MAX_WORDS = 64, MAX_WORD = 300, MAX_INPUT = 1 << 18, MAX_COPY = 4096, PIPE_BYTES = 60000, SECONDS = 120 };
enum { MOST_SAMPLED = 200, STATUSES = 256, MOST_TOLD = 20 };

typedef struct { uint8_t *bytes; size_t length; } Text;
typedef struct { Text *items; size_t count; } List;
typedef struct { char words[MAX_WORDS][MAX_WORD + 1]; int count; } Call;

static uint64_t state;

// The generator `splitmix64`.
static uint64_t draw(void) {
  uint64_t z = state += 0x9e3779b97f4a7c15;
  z = (z ^ (z >> 30)) * 0xbf58476d1ce4e5b9;
  z = (z ^ (z >> 27)) * 0x94d049bb133111eb;
  return z ^ (z >> 31);
}

static size_t below(size_t limit) { return limit ? draw() % limit : 0; }

static void fail(const char *what) {
  perror(what);
  exit(2);
}

static void *room(size_t bytes) {
  void *got = malloc(bytes ? bytes : 1);
  if (!got) fail("malloc");
  return got;
}

static uint32_t read_number(FILE *file) {
  uint8_t b[4];
  if (fread(b, 1, 4, file) != 4) fail("corpus");
  return b[0] | b[1] << 8 | b[2] << 16 | (uint32_t)b[3] << 24;
}

static List read_list(FILE *file) {
  List list = {NULL, read_number(file)};
  list.items = room(list.count * sizeof(Text));
  for (size_t k = 0; k < list.count; k++) {
    Text *item = &list.items[k];
    item->length = read_number(file);
    item->bytes = room(item->length);
    if (fread(item->bytes, 1, item->length, file) != item->length) fail("corpus");
  }
  return list;
}

static const Text *pick(const List *list) { return &list->items[below(list->count)]; }

// Puts some bytes in place of others, as far as there is room.
static void put(Text *text, size_t at, size_t gone, const uint8_t *bytes, size_t length) {
  if (text->length - gone + length > MAX_INPUT) return;
  memmove(text->bytes + at + length, text->bytes + at + gone, text->length - at - gone);
  memcpy(text->bytes + at, bytes, length);
  text->length += length - gone;
}

// A place in a text, half of them in the front that the header takes.
static size_t place(const Text *text) {
  size_t front = text->length < 300 ? text->length : 300;
  return below((draw() & 1 ? front : text->length) + 1);
}

static void mutate_input(Text *text, const List *inputs, const List *tokens) {
  static const uint8_t odd[] = {0, 1, 9, 10, 13, 32, 34, 35, 42, 43, 45, 46, 47, 48, 57, 59, 61, 91, 93, 95, 101, 120, 123, 125, 127, 128, 254, 255};
  uint8_t bytes[MAX_COPY];
  size_t at = place(text), left = text->length - at, length = 1 + below(draw() & 7 ? 8 : 256), from;
  size_t gone = length < left ? length : left;
  const Text *other;
  switch (below(9)) {
  case 0:
    if (left) text->bytes[at] ^= 1 << below(8);
    break;
  case 1:
    if (left) text->bytes[at] = odd[below(sizeof odd)];
    break;
  case 2:
    put(text, at, gone, bytes, 0);
    break;
  case 3:
    for (size_t k = 0; k < length; k++) bytes[k] = draw() & 1 ? draw() : odd[below(sizeof odd)];
    put(text, at, below(gone + 1), bytes, length);
    break;
  case 4:
    other = pick(tokens);
    put(text, at, draw() & 1 ? 0 : gone, other->bytes, other->length < MAX_COPY ? other->length : MAX_COPY);
    break;
  case 5:
    from = place(text), length = text->length - from < MAX_COPY ? text->length - from : MAX_COPY;
    length = below(length + 1);
    memcpy(bytes, text->bytes + from, length);
    put(text, at, 0, bytes, length);
    break;
  case 6:
    other = pick(inputs), from = below(other->length + 1);
    length = other->length - from < MAX_COPY ? other->length - from : MAX_COPY;
    put(text, at, below(gone + 1), other->bytes + from, length);
    break;
  case 7:
    if (below(4) == 0) text->length = at;
    break;
  default:
    memset(bytes, left ? text->bytes[at] : ' ', length);
    put(text, at, 0, bytes, length);
  }
}

static void set_word(char *word, const uint8_t *bytes, size_t length) {
  if (length > MAX_WORD) length = MAX_WORD;
  memcpy(word, bytes, length);
  word[length] = 0;
}

static void mutate_word(char *word, const List *tokens) {
  size_t length = strlen(word), at = below(length + 1);
  const Text *token = pick(tokens);
  switch (below(5)) {
  case 0:
    set_word(word, token->bytes, token->length);
    break;
  case 1:
    if (length) word[at < length ? at : length - 1] = 1 + below(below(4) ? 127 : 255);
    break;
  case 2:
    word[at] = 0;
    break;
  case 3:
    if (length + token->length <= MAX_WORD) {
      memmove(word + at + token->length, word + at, length - at + 1);
      memcpy(word + at, token->bytes, token->length);
    }
    break;
  default:
    if (length < MAX_WORD) {
      memmove(word + at + 1, word + at, length - at + 1);
      word[at] = "0123456789/-= "[below(14)];
    }
  }
}

static void insert_word(Call *call, size_t at, const char *word) {
  if (call->count == MAX_WORDS) return;
  memmove(call->words[at + 1], call->words[at], (call->count - at) * sizeof call->words[0]);
  memmove(call->words[at], word, strlen(word) + 1);
  call->count++;
}

static void mutate_call(Call *call, const List *tokens) {
  size_t at = below(call->count + 1), other = below(call->count + 1);
  char word[MAX_WORD + 1] = "";
  if (at < (size_t)call->count) memcpy(word, call->words[at], sizeof word);
  switch (below(5)) {
  case 0:
    mutate_word(word, tokens);
    insert_word(call, other, word);
    break;
  case 1:
    if (at == (size_t)call->count) break;
    memmove(call->words[at], call->words[at + 1], (call->count - at - 1) * sizeof call->words[0]);
    call->count--;
    break;
  case 2:
    insert_word(call, other, word);
    break;
  default:
    if (at < (size_t)call->count) mutate_word(call->words[at], tokens);
  }
}

// Makes the numbers of a `sample` small that would be many bodies, since the work may be their square.
static void spare(Call *call) {
  int named = 0;
  if (call->count == 0 || strcmp(call->words[0], "sample")) return;
  for (int k = 1; k < call->count; k++) {
    char *word = call->words[k];
    size_t length = strlen(word);
    named |= !strcmp(word, "--bodies");
    if (length > 20 || length == 0 || strspn(word, "0123456789") != length) continue;
    uint64_t value = strtoull(word, NULL, 10);
    if (value > MOST_SAMPLED && value <= 262144) snprintf(word, MAX_WORD, "%d", (int)(value % MOST_SAMPLED));
  }
  if (!named) insert_word(call, 1, "9"), insert_word(call, 1, "--bodies");
}

// Whether the bytes are UTF-8.
static int is_text(const char *word) {
  const uint8_t *b = (const uint8_t *)word;
  while (*b) {
    int more = *b < 0x80 ? 0 : *b >= 0xc2 && *b < 0xe0 ? 1 : *b >= 0xe0 && *b < 0xf0 ? 2 : *b >= 0xf0 && *b < 0xf5 ? 3 : -1;
    if (more < 0 || (*b == 0xe0 && b[1] < 0xa0) || (*b == 0xed && b[1] > 0x9f) || (*b == 0xf0 && b[1] < 0x90) || (*b == 0xf4 && b[1] > 0x8f)) return 0;
    for (b++; more; more--, b++)
      if ((*b & 0xc0) != 0x80) return 0;
  }
  return 1;
}

static Text read_back(int file) {
  off_t length = lseek(file, 0, SEEK_END);
  Text text = {room(length), length};
  if (pread(file, text.bytes, length, 0) != length) fail("read back");
  return text;
}

static int begins(const Text *text, const char *front) {
  return text->length >= strlen(front) && !memcmp(text->bytes, front, strlen(front));
}

static int is(const Text *text, const char *whole) { return text->length == strlen(whole) && begins(text, whole); }

// Whether the text is lines, of which none is cut.
static int has_end(const Text *text) { return text->length && text->bytes[text->length - 1] == '\n'; }

static int is_one_line(const Text *text) {
  return has_end(text) && memchr(text->bytes, '\n', text->length) == text->bytes + text->length - 1;
}

// How the outputs of lines begin.
static const char *FRONTS[] = {"# hot forces 1\n", "# hot split 1\n", "# hot near 1\n", "sample bodies "};

// What is wrong with an answer, or NULL.
static const char *judge(int status, const Text *out, const Text *err, int are_texts) {
  if (status != 0 && out->length) return "a refusal with output";
  if (!are_texts) return status == 2 && !err->length ? NULL : "words that are no text";
  switch (status) {
  case 0:
    if (err->length && !(begins(err, "# hot report 1\n") && has_end(err))) return "status 0 with a line";
    if (begins(out, "# SDF\n")) return NULL;
    if (!has_end(out)) return "an output that is cut";
    for (size_t k = 0; k < sizeof FRONTS / sizeof *FRONTS; k++)
      if (begins(out, FRONTS[k])) return NULL;
    return "an unknown output";
  case 2:
    return begins(err, "hot: A") && has_end(err) ? NULL : "refused words with another line";
  case 3:
    return (begins(err, "hot: H") || begins(err, "hot: B")) && is_one_line(err) ? NULL : "a refused file with another line";
  case 4:
    return is(err, "hot: read fault\n") ? NULL : "a read fault with another line";
  case 5:
    return "a write fault, and nothing failed";
  case 6:
    return is(err, "hot: out of memory\n") ? NULL : "want of memory with another line";
  default:
    return "a status outside the table";
  }
}

// The input as a file at its beginning, or as a pipe that holds all of it.
static int open_input(const Text *input, int file) {
  int ends[2];
  if (input->length <= PIPE_BYTES && draw() & 1) {
    if (pipe2(ends, O_CLOEXEC)) fail("pipe");
    if (write(ends[1], input->bytes, input->length) != (ssize_t)input->length) fail("pipe");
    close(ends[1]);
    return ends[0];
  }
  if (ftruncate(file, 0) || pwrite(file, input->bytes, input->length, 0) != (ssize_t)input->length) fail("input");
  lseek(file, 0, SEEK_SET);
  return fcntl(file, F_DUPFD_CLOEXEC, 3);
}

// Runs the program, and gives its status, or less than 0 where it did not end by itself.
static int run(const char *program, Call *call, const int streams[3]) {
  static char *environment[] = {NULL};
  char *words[MAX_WORDS + 2] = {(char *)program};
  posix_spawn_file_actions_t actions;
  posix_spawnattr_t attributes;
  sigset_t none, child;
  struct timespec limit = {SECONDS, 0};
  pid_t process;
  int ended;
  for (int k = 0; k < call->count; k++) words[k + 1] = call->words[k];
  sigemptyset(&none), sigemptyset(&child), sigaddset(&child, SIGCHLD);
  posix_spawn_file_actions_init(&actions);
  for (int k = 0; k < 3; k++) posix_spawn_file_actions_adddup2(&actions, streams[k], k);
  posix_spawnattr_init(&attributes);
  posix_spawnattr_setflags(&attributes, POSIX_SPAWN_SETSIGMASK);
  posix_spawnattr_setsigmask(&attributes, &none);
  if ((errno = posix_spawn(&process, program, &actions, &attributes, words, environment))) fail("spawn");
  posix_spawn_file_actions_destroy(&actions), posix_spawnattr_destroy(&attributes);
  int has_hung = 0;
  while (sigtimedwait(&child, NULL, &limit) < 0)
    if (errno == EAGAIN) has_hung = 1, kill(process, SIGKILL);
  if (waitpid(process, &ended, 0) != process) fail("wait");
  return has_hung ? -SIGALRM : WIFEXITED(ended) ? WEXITSTATUS(ended) : -WTERMSIG(ended);
}

static void keep(const char *folder, size_t number, const Call *call, const Text *input) {
  char name[4096];
  snprintf(name, sizeof name, "%s/%zu.words", folder, number);
  FILE *file = fopen(name, "wb");
  if (!file) fail(name);
  for (int k = 0; k < call->count; k++) fwrite(call->words[k], 1, strlen(call->words[k]) + 1, file);
  fclose(file);
  snprintf(name, sizeof name, "%s/%zu.input", folder, number);
  if (!(file = fopen(name, "wb"))) fail(name);
  fwrite(input->bytes, 1, input->length, file);
  fclose(file);
}

static void read_call(Call *call, const Text *item) {
  call->count = 0;
  for (size_t at = 0; at < item->length && call->count < MAX_WORDS; call->count++) {
    size_t length = strnlen((char *)item->bytes + at, item->length - at);
    set_word(call->words[call->count], item->bytes + at, length);
    at += length + 1;
  }
}

// What cases are made from, and what a run gets.
typedef struct {
  List calls, inputs, word_tokens, tokens;
  const char *program, *kept;
  int source, streams[3];
} Bench;

// Makes a case: words alone are mutated, both, or the input alone.
static void make_case(const Bench *bench, Call *call, Text *input) {
  const Text *chosen = pick(&bench->inputs);
  size_t kind = below(6);
  read_call(call, pick(&bench->calls));
  input->length = chosen->length < MAX_INPUT ? chosen->length : MAX_INPUT;
  memcpy(input->bytes, chosen->bytes, input->length);
  for (size_t turns = kind == 0 ? 0 : 1 + below(below(3) ? 2 : 12); turns; turns--)
    mutate_input(input, &bench->inputs, &bench->tokens);
  for (size_t turns = kind > 1 ? 0 : 1 + below(3); turns; turns--) mutate_call(call, &bench->word_tokens);
  spare(call);
}

// Runs a case, and gives its status; `why` is what is wrong with it, or NULL.
static int try_case(Bench *bench, Call *call, const Text *input, const char **why) {
  int are_texts = 1;
  for (int k = 0; k < call->count; k++) are_texts &= is_text(call->words[k]);
  for (int k = 1; k < 3; k++)
    if (ftruncate(bench->streams[k], 0) || lseek(bench->streams[k], 0, SEEK_SET)) fail("truncate");
  bench->streams[0] = open_input(input, bench->source);
  int status = run(bench->program, call, bench->streams);
  close(bench->streams[0]);
  Text out = read_back(bench->streams[1]), err = read_back(bench->streams[2]);
  *why = status == -SIGALRM ? "it hangs" : status < 0 ? strsignal(-status) : judge(status, &out, &err, are_texts);
  free(out.bytes), free(err.bytes);
  return status;
}

static Bench open_bench(char **words) {
  FILE *file = fopen(words[2], "rb");
  if (!file) fail(words[2]);
  Bench bench = {.program = words[1], .kept = words[6]};
  bench.calls = read_list(file), bench.inputs = read_list(file);
  bench.word_tokens = read_list(file), bench.tokens = read_list(file);
  fclose(file);
  bench.source = memfd_create("input", MFD_CLOEXEC);
  bench.streams[1] = memfd_create("out", MFD_CLOEXEC), bench.streams[2] = memfd_create("err", MFD_CLOEXEC);
  return bench;
}

int main(int count, char **words) {
  if (count != 7) return 2;
  Bench bench = open_bench(words);
  uint64_t seed = strtoull(words[3], NULL, 10);
  size_t first = strtoull(words[4], NULL, 10), number = strtoull(words[5], NULL, 10), ended[STATUSES] = {0}, told = 0;
  struct rlimit no_core = {0, 0};
  sigset_t child;
  sigemptyset(&child), sigaddset(&child, SIGCHLD), sigprocmask(SIG_BLOCK, &child, NULL);
  setrlimit(RLIMIT_CORE, &no_core);
  Call call;
  Text input = {room(MAX_INPUT), 0};
  for (size_t k = first; k < first + number && told < MOST_TOLD; k++) {
    const char *why;
    state = seed * 0x2545f4914f6cdd1d + k * 0xd1342543de82ef95;
    make_case(&bench, &call, &input);
    int status = try_case(&bench, &call, &input, &why);
    if (status >= 0) ended[status]++;
    if (why) printf("wrong %zu status %d: %s\n", k, status, why), keep(bench.kept, k, &call, &input), told++;
  }
  for (int k = 0; k < STATUSES; k++)
    if (ended[k]) printf("%d %zu\n", k, ended[k]);
  return told ? 1 : 0;
}
