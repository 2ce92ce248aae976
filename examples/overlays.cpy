      * Corners of REDEFINES: an aligned item that is redefined, one that
      * redefines a redefiner, a table laid over an item, an item
      * without a name that is redefined, and a group with a member of
      * its own name.
       01  SCAN.
           05  READER-ID             PIC X(3).
           05  CHIP                  PIC 9(9) COMP SYNC.
           05  CHIP-BYTES REDEFINES CHIP PIC X OCCURS 4.
           05  CHIP-HALF REDEFINES CHIP-BYTES PIC X(2).
           05.
               10  SCAN-DATE         PIC 9(8).
               10  SCAN-TIME         PIC 9(6).
           05  SCAN-STAMP REDEFINES FILLER PIC 9(14).
           05  FISH.
               10  FISH              PIC X(5).
               10  WEIGHT            PIC 9(4) COMP.
           05  FISH-TEXT REDEFINES FISH PIC X(7).
           05  FILLER                PIC X(3).
