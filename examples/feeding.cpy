      * A line of the feeding report, as it is printed: edited pictures,
      * separate signs, and literals that are passed over.
       01  FEEDING-LINE.
           05  LINE-NO               PIC ZZZ9.
           05  FILLER                PIC X     VALUE SPACE.
           05  TANK-NAME             PIC A(12).
           05  FED-ON                PIC 99/99/9999.
           05  FEED-KG               PIC Z,ZZ9.9.
           05  COST                  PIC $$$,$$9.99CR.
           05  GROWTH                PIC +++9.99.
           05  SHORTAGE              PIC ***9.
           05  BALANCE               PIC S9(7)V99 SIGN IS TRAILING SEPARATE.
           05  BALANCE-OLD           PIC S9(7)V99.
           05  FILLER                PIC X(2)  VALUE '--'.
