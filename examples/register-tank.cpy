      * The register's record of a tank.
       01  TANK-RECORD.
           05  RECORD-KIND           PIC X.
           05  Register-No           PIC 9999999.
           05  WEIGHT-KG             PIC Z99.9.
           05  PROBES                PIC 9.
           05  OXYGEN OCCURS 1 TO 8 DEPENDING ON PROBES PIC 99V9.
           05  CHECKED               PIC 9(8).
