       01  FISH.
           COPY TAGS.
           05  LEN-MM        PIC 9(3).
