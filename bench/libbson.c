/* dump, check and pack over libbson, to stand beside bsonfind: libbson COMMAND FILE.
   Built by bench.py, where libbson is installed: cc -O2 libbson.c $(pkg-config --cflags --libs libbson-1.0) */
#define _GNU_SOURCE
#include <bson/bson.h>
#include <stdio.h>
#include <string.h>

static bool dump(const bson_t *document, bson_error_t *error) {
  size_t length;
  char *text = bson_as_canonical_extended_json(document, &length);
  if (!text) {
    bson_set_error(error, 0, 0, "a document is not printed");
    return false;
  }
  fwrite(text, 1, length, stdout);
  putchar_unlocked('\n');
  bson_free(text);
  return true;
}

static bool check(const bson_t *document, bson_error_t *error) {
  return bson_validate_with_error(document, BSON_VALIDATE_UTF8 | BSON_VALIDATE_UTF8_ALLOW_NULL, error);
}

/* Each document of a dump. */
static bool documents(const char *file, bool (*one)(const bson_t *, bson_error_t *), bson_error_t *error) {
  bson_reader_t *reader = bson_reader_new_from_file(file, error);
  if (!reader) return false;
  bool at_end = false, good = true;
  const bson_t *document;
  while (good && (document = bson_reader_read(reader, &at_end))) good = one(document, error);
  bson_reader_destroy(reader);
  if (good && !at_end) bson_set_error(error, 0, 0, "the dump is cut short");
  return good && at_end;
}

/* Each line of a text as a document. */
static bool pack(const char *file, bson_error_t *error) {
  FILE *text = fopen(file, "r");
  if (!text) {
    bson_set_error(error, 0, 0, "cannot open %s", file);
    return false;
  }
  char *line = NULL;
  size_t room = 0;
  ssize_t length;
  bool good = true;
  while (good && (length = getline(&line, &room, text)) > 0) {
    bson_t *document = bson_new_from_json((const uint8_t *)line, length, error);
    good = document != NULL;
    if (good) fwrite(bson_get_data(document), 1, document->len, stdout);
    bson_destroy(document);
  }
  free(line);
  fclose(text);
  return good;
}

int main(int count, char **words) {
  bson_error_t error = {0};
  bool good = false;
  if (count == 3 && !strcmp(words[1], "dump")) good = documents(words[2], dump, &error);
  else if (count == 3 && !strcmp(words[1], "check")) good = documents(words[2], check, &error);
  else if (count == 3 && !strcmp(words[1], "pack")) good = pack(words[2], &error);
  else bson_set_error(&error, 0, 0, "usage: libbson dump|check|pack FILE");
  if (!good) fprintf(stderr, "%s\n", error.message);
  return !good;
}
