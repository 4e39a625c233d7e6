/* A program for sdk/check, which builds it in other ways than sdk/build does. It returns 42. */
static volatile int given = 35, zeroed;

int
main(void)
{
  return given + (zeroed += 7);
}
