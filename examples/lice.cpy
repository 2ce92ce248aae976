*> What a lice counter writes: single and double floats, which have no picture.
01 LICE-COUNT.
   05 TANK            PIC X(5).
   05 COUNTED-AT      PIC 9(6).
   05 PER-FISH        COMP-1 SYNC.             *> 4 bytes, aligned to 4
   05 SAMPLES         PIC 9(3).
   05 SPREAD          COMPUTATIONAL-2 SYNC.    *> 8 bytes, aligned to 8
   05 BY-STAGE        COMP-1.                  *> the usage of a group holds for its members
      10 CHALIMUS.
      10 MOBILE       OCCURS 2.
      10 FEMALES      PIC 9(4) COMP.           *> but their own comes first
   05 COUNTED-BY      PIC X(3).
