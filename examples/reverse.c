/* Writes the lines of the input, the last one first. */
struct line {
  char *text;
  struct line *below;
};

struct line *pushed(struct line *top, char *text) {
  struct line *line = malloc(sizeof(struct line));
  line->text = text;
  line->below = top;
  return line;
}

int main(void) {
  struct line *top = NULL;
  int c = getchar();
  while (c != EOF) {
    char *text = malloc(80);
    int n = 0;
    while (c != EOF && c != '\n') {
      text[n++] = c;
      c = getchar();
    }
    text[n] = 0;
    top = pushed(top, text);
    if (c == '\n') c = getchar();
  }
  while (top) {
    struct line *below = top->below;
    puts(top->text);
    free(top->text);
    free(top);
    top = below;
  }
  return 0;
}
