       01  BREEDING.
           05  TAG           PIC X(5).
           05  TAG-PARTS REDEFINES TAGS.
               10  TAG-SITE  PIC X(2).
               10  TAG-NO    PIC 9(3).
