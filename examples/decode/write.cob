      * Writes three hauls to catch.dat, and displays what they hold,
      * a line for each item: its name and its value.
       IDENTIFICATION DIVISION.
       PROGRAM-ID. WRITE-CATCH.
       ENVIRONMENT DIVISION.
       INPUT-OUTPUT SECTION.
       FILE-CONTROL.
           SELECT HAULS ASSIGN TO "catch.dat"
               ORGANIZATION IS SEQUENTIAL.
       DATA DIVISION.
       FILE SECTION.
       FD  HAULS.
       COPY "catch.cpy".
       WORKING-STORAGE SECTION.
       01  SHOWN                 PIC -(9)9.9(4).
       PROCEDURE DIVISION.
           OPEN OUTPUT HAULS.
           MOVE "TROLL" TO BOAT.
           MOVE 20240229 TO LANDED.
           MOVE -87 TO DEPTH.
           MOVE -45 TO BEARING.
           MOVE -3.5 TO DRIFT.
           MOVE 34.71 TO SALINITY.
           MOVE 1 TO HAUL-NO.
           MOVE -1.2 TO TIDE.
           MOVE 1000000 TO POTS.
           MOVE 12345.67 TO WEIGHT.
           MOVE 1999.95 TO PRICE.
           MOVE 4.25 TO TEMPERATURE.
           MOVE 62.4375 TO LATITUDE.
           MOVE "COD" TO SPECIES (1).
           MOVE 4012 TO FISH-COUNT (1).
           MOVE "LNG" TO SPECIES (2).
           MOVE 7 TO FISH-COUNT (2).
           MOVE -12.5 TO ASKED.
           PERFORM WRITE-IT.
           MOVE "HAVFRU" TO BOAT.
           MOVE 19991231 TO LANDED.
           MOVE 250 TO DEPTH.
           MOVE 180 TO BEARING.
           MOVE 12 TO DRIFT.
           MOVE -0.01 TO SALINITY.
           MOVE 987654321 TO HAUL-NO.
           MOVE 987.6 TO TIDE.
           MOVE -2 TO POTS.
           MOVE -0.05 TO WEIGHT.
           MOVE 0 TO PRICE.
           MOVE -0.5 TO TEMPERATURE.
           MOVE -70.125 TO LATITUDE.
           MOVE SPACES TO SPECIES (1).
           MOVE 0 TO FISH-COUNT (1).
           MOVE "HAK" TO SPECIES (2).
           MOVE 9999 TO FISH-COUNT (2).
           MOVE 999.99 TO ASKED.
           PERFORM WRITE-IT.
           MOVE "X" TO BOAT.
           MOVE 0 TO LANDED DEPTH BEARING DRIFT SALINITY HAUL-NO
               TIDE POTS WEIGHT PRICE TEMPERATURE LATITUDE
               FISH-COUNT (2) ASKED.
           PERFORM WRITE-IT.
           CLOSE HAULS.
           STOP RUN.
       WRITE-IT.
           WRITE CATCH.
           DISPLAY 'BOAT "' BOAT '"'.
           MOVE LANDED TO SHOWN.
           DISPLAY "LANDED " SHOWN.
           MOVE YYYY TO SHOWN.
           DISPLAY "YYYY " SHOWN.
           MOVE MM TO SHOWN.
           DISPLAY "MM " SHOWN.
           MOVE DD TO SHOWN.
           DISPLAY "DD " SHOWN.
           MOVE DEPTH TO SHOWN.
           DISPLAY "DEPTH " SHOWN.
           MOVE BEARING TO SHOWN.
           DISPLAY "BEARING " SHOWN.
           MOVE DRIFT TO SHOWN.
           DISPLAY "DRIFT " SHOWN.
           MOVE SALINITY TO SHOWN.
           DISPLAY "SALINITY " SHOWN.
           MOVE HAUL-NO TO SHOWN.
           DISPLAY "HAUL-NO " SHOWN.
           MOVE TIDE TO SHOWN.
           DISPLAY "TIDE " SHOWN.
           MOVE POTS TO SHOWN.
           DISPLAY "POTS " SHOWN.
           MOVE WEIGHT TO SHOWN.
           DISPLAY "WEIGHT " SHOWN.
           MOVE PRICE TO SHOWN.
           DISPLAY "PRICE " SHOWN.
           MOVE TEMPERATURE TO SHOWN.
           DISPLAY "TEMPERATURE " SHOWN.
           MOVE LATITUDE TO SHOWN.
           DISPLAY "LATITUDE " SHOWN.
           DISPLAY 'SPECIES(1) "' SPECIES (1) '"'.
           MOVE FISH-COUNT (1) TO SHOWN.
           DISPLAY "FISH-COUNT(1) " SHOWN.
           DISPLAY 'SPECIES(2) "' SPECIES (2) '"'.
           MOVE FISH-COUNT (2) TO SHOWN.
           DISPLAY "FISH-COUNT(2) " SHOWN.
           DISPLAY 'ASKED "' ASKED '"'.
