      * Values in quotes: neither a period nor *> counts inside them, and a
      * mark that is written twice stands for itself.
       01  STATION.
           05  SITE          PIC X(12) VALUE 'St. Olav 4'.
           05  SPECIES       PIC X(4)  VALUE "SA".
               88  SALMON    VALUE 'SA' 'S. ' 'Sal.'.
               88  TROUT     VALUES ARE 'TR' THRU 'TZ'.
           05  REMARK        PIC X(24) VALUE 'it''s cleaned. ok'.
           05  PROMPT        PIC X(10)
               VALUE '*> no note'.   *> a note, it's cut
           05  PADDING       PIC X(4)  VALUE X'00000000'.
           05  COLDEST       PIC S9(2)V9 COMP-3 VALUE -1.5.
