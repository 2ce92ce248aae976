       01  FISH.
      *    the tag's number, from Tromsø
           05  TAG           PIC X(9).
