       01  FISH.
      *    the tag's number, from Tromso
           05  TAG           PIC X(9).
