       78  TAG-LENGTH VALUE 9.
       01  FISH.
           05  TAG           PIC X(TAG-LENGTH).
