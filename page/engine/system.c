/* The system's text of an error number, which the proved code prints behind a failed read or write. A run in a page has no
   system, and no such failure: the text is empty. */
int __xpg_strerror_r(int error, char *text, unsigned long room) {
  (void)error;
  if (room > 0) text[0] = 0;
  return 0;
}
