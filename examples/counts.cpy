*> What is counted in a tank. The usage of a group holds for its members: they are binary where they name no other.
01 TANK-COUNTS.
   05 TANK            PIC X(5).
   05 COUNTED-ON      PIC 9(8).
   05 COUNTS          COMP.
      10 STOCKED      PIC 9(6).
      10 DEAD         PIC 9(4).
      10 LICE         OCCURS 3 PIC S9(4).
      10 CHECKED-BY   PIC X(3).                   *> text is text under any usage
      10 WEIGHTS      USAGE IS PACKED-DECIMAL.    *> the nearest group that names a usage
         15 MEAN      PIC 9(5)V99.
         15 LARGEST   PIC 9(5)V99.
      10 DEAD-SHOWN   PIC ZZZ9 DISPLAY.           *> DISPLAY takes it back
      10 NEXT-COUNT   PIC 9(8) SYNC.
   05 SHIFT           PIC 9(2).
